//! What a sheet is worth: what was lost, what was ignored, what is harmless, like ones together.
use crate::json::Json;
use crate::message::{Message, counted, grouped};
use crate::rows;
use crate::unread::{self, Place, Unread, position_of_column};
use crate::words;
use ruevault::{Notice, Record};

/// The most notices that a sheet keeps.
pub const MOST_NOTICES: usize = 1024;

#[derive(Clone, Copy, PartialEq, Eq, PartialOrd, Ord)]
pub enum Class {
    /// A token gave no note, or records were not read.
    Lost,
    /// What a player could want isn't in the sheet.
    Ignored,
    /// The music is whole.
    Harmless,
}

impl Class {
    pub fn word(self) -> &'static str {
        match self {
            Class::Lost => "lost",
            Class::Ignored => "ignored",
            Class::Harmless => "harmless",
        }
    }
}

/// Where one of a group stands.
pub struct Spot {
    pub line: u64,
    /// Of the sheet, from 1; 0 for the whole line.
    pub token: u16,
    pub column: u64,
    pub said: Vec<u8>,
}

pub struct Group {
    pub class: Class,
    /// The notice's; 0 where none was kept.
    pub number: u8,
    pub what: String,
    pub count: usize,
    /// The first of them.
    pub spots: Vec<Spot>,
}

#[derive(Default)]
pub struct Account {
    pub parts: usize,
    pub bars: u32,
    pub notes: usize,
    pub notices: usize,
    pub groups: Vec<Group>,
    /// How many tokens gave no note.
    pub unread: usize,
}

/// What a notice is of, but for those of tokens that gave no note.
fn class_of(number: u8) -> Class {
    match number {
        3 | 7 => Class::Lost,
        1 | 4 | 5 | 6 | 20 => Class::Harmless,
        _ => Class::Ignored,
    }
}

/// Whether a notice says why a token gave no note. The sheet tells whether it gave one.
pub fn may_lose(number: u8) -> bool {
    matches!(number, 16 | 18 | 19 | 21)
}

/// What a notice says, in words; of signifiers each kind.
pub fn whats<'a>(n: &Notice<'a>, text: &'a [u8]) -> Vec<String> {
    let said = n.preserved(text);
    match n.number {
        17 => {
            let mut whats: Vec<String> = Vec::new();
            for c in String::from_utf8_lossy(said).chars() {
                let what = match words::signifier(c) {
                    Some(name) => format!("{name}, not imported"),
                    None => format!("signifier `{}`, not imported", words::plain(c.to_string().as_bytes())),
                };
                if !whats.contains(&what) {
                    whats.push(what);
                }
            }
            whats
        }
        2 => vec![format!("{}, not `{}`", ruevault::notice_reason(2), words::shortened(said))],
        number => vec![ruevault::notice_reason(number)],
    }
}

/// The account of a sheet, with as many places of each group as are asked for.
pub fn of(text: &[u8], sheet: &[u8], most: usize) -> Account {
    let mut account = Account::default();
    let (mut places, mut notices) = (Vec::new(), Vec::new());
    for record in ruevault::walk(sheet) {
        match record {
            Record::Note(note) => places.push(Place::of(&note)),
            Record::Bar(bar) => account.bars = bar.number,
            Record::Part(_) => account.parts += 1,
            Record::Notice(notice) => notices.push(notice),
            Record::End(_) => {}
        }
    }
    account.notes = places.len();
    account.notices = notices.len();
    account.lose(text, &places, &mut notices, most);
    notices.iter().for_each(|notice| account.note(text, notice, most));
    account.groups.sort_by_key(|g| (g.class, g.spots.first().map_or(0, |s| s.line)));
    account.find_columns(text);
    account
}

impl Account {
    /// The tokens without a note, each by the notice that says why; takes these notices out.
    fn lose(&mut self, text: &[u8], places: &[Place], notices: &mut Vec<Notice>, most: usize) {
        let mut reasons = notices.iter().filter(|n| may_lose(n.number)).map(|n| (u64::from(n.line), usize::from(n.column), n.number)).peekable();
        let mut of_lost = Vec::new();
        unread::each(text, places, |u| {
            while reasons.next_if(|(line, column, _)| (*line, *column) < (u.line, u.column)).is_some() {}
            let number = reasons.next_if(|(line, column, _)| (*line, *column) == (u.line, u.column)).map_or(0, |(.., number)| number);
            if number != 0 {
                of_lost.push((u.line, u.column));
            }
            self.unread += 1;
            self.count(Class::Lost, number, || lost(number), most, || spot_of(&u));
        });
        notices.retain(|n| !may_lose(n.number) || of_lost.binary_search(&(n.line.into(), n.column.into())).is_err());
    }

    fn note<'a>(&mut self, text: &'a [u8], n: &Notice<'a>, most: usize) {
        let said = n.preserved(text);
        let spot = |said: &[u8]| Spot { line: n.line.into(), token: n.column, column: 0, said: said.to_vec() };
        let what = whats(n, text);
        match n.number {
            17 => what.into_iter().for_each(|what| self.count(Class::Ignored, 17, || what, most, || spot(&[]))),
            2 => what.into_iter().for_each(|what| self.count(Class::Ignored, 2, || what, most, || spot(&[]))),
            1 => self.count(Class::Harmless, 1, || ruevault::notice_reason(1), most, || spot(n.key.of(text))),
            number => self.count(class_of(number), number, || ruevault::notice_reason(number), most, || spot(said)),
        }
    }

    fn count(&mut self, class: Class, number: u8, what: impl FnOnce() -> String, most: usize, spot: impl FnOnce() -> Spot) {
        // Lost tokens and most notices go by their number alone.
        let by_number = class == Class::Lost || !matches!(number, 2 | 17);
        let what = if by_number && self.groups.iter().any(|g| (g.class, g.number) == (class, number)) { None } else { Some(what()) };
        let found = self.groups.iter_mut().find(|g| (g.class, g.number) == (class, number) && what.as_ref().is_none_or(|w| *w == g.what));
        match found {
            Some(group) => {
                group.count += 1;
                if group.spots.len() < most {
                    group.spots.push(spot());
                }
            }
            None => self.groups.push(Group { class, number, what: what.unwrap_or_default(), count: 1, spots: vec![spot()] }),
        }
    }

    /// The columns of all places, in one walk over the text.
    fn find_columns(&mut self, text: &[u8]) {
        let mut spots: Vec<&mut Spot> = self.groups.iter_mut().flat_map(|g| &mut g.spots).collect();
        spots.sort_by_key(|s| s.line);
        let numbers: Vec<u64> = spots.iter().map(|s| s.line).collect();
        for (spot, line) in spots.into_iter().zip(rows::lines_at(text, &numbers)) {
            spot.column = position_of_column(line, spot.token);
        }
    }

    pub fn of_class(&self, class: Class) -> impl Iterator<Item = &Group> {
        self.groups.iter().filter(move |g| g.class == class)
    }

    pub fn total(&self, class: Class) -> usize {
        self.of_class(class).map(|g| g.count).sum()
    }

    /// `2 parts, 24 bars, 310 notes; lost: 3, ignored: 13, harmless: 2`.
    pub fn summary(&self) -> String {
        let [lost, ignored, harmless] = [Class::Lost, Class::Ignored, Class::Harmless].map(|c| grouped(self.total(c) as u64));
        let more = if self.notices == MOST_NOTICES { " (of the first 1,024 notices; lost tokens are all counted)" } else { "" };
        format!(
            "{}, {}, {}; lost: {lost}, ignored: {ignored}, harmless: {harmless}{more}",
            counted(self.parts, "part"),
            counted(self.bars as usize, "bar"),
            counted(self.notes, "note")
        )
    }

    pub fn json(&self, o: &mut Json) {
        o.field("parts", |v| v.number(self.parts as u64));
        o.field("bars", |v| v.number(self.bars));
        o.field("notes", |v| v.number(self.notes as u64));
        o.field("unread", |v| v.number(self.unread as u64));
        o.field("notices_full", |v| v.boolean(self.notices == MOST_NOTICES));
        o.field("groups", |v| v.array(|a| self.groups.iter().for_each(|g| a.item(|v| g.json(v)))));
    }
}

fn spot_of(u: &Unread) -> Spot {
    Spot { line: u.line, token: u.column as u16, column: 0, said: u.token.to_vec() }
}

fn lost(number: u8) -> String {
    match number {
        0 => "no note, and no reason, as 1,024 notices were kept before it".to_string(),
        number => format!("no note: {}", ruevault::notice_reason(number)),
    }
}

impl Group {
    /// `stems, not imported: 13, first 12:1`; of one, where it is.
    pub fn said(&self) -> String {
        let Some(first) = self.spots.first() else { return self.what.clone() };
        let said = if first.said.is_empty() { String::new() } else { format!(" `{}`", words::shortened(&first.said)) };
        match self.count {
            1 => format!("{}: {}:{}{said}", self.what, first.line, first.column),
            count => format!("{}: {}, first {}:{}{said}", self.what, grouped(count as u64), first.line, first.column),
        }
    }

    /// A message for the group; of what is lost one for each place that is known, and one for the rest.
    pub fn messages(&self) -> Vec<Message> {
        let of = |spot: &Spot, text: String| Message::warning(self.number, spot.line, spot.column, format!("{}: {text}", self.class.word()));
        let Some(first) = self.spots.first() else { return Vec::new() };
        let quoted = |spot: &Spot| if spot.said.is_empty() { String::new() } else { format!(", `{}`", words::shortened(&spot.said)) };
        if self.class != Class::Lost {
            let hint = words::kern_in_other_letters(self.number, &self.what);
            let text = if self.count == 1 { format!("{}{}", self.what, quoted(first)) } else { self.said() };
            return vec![Message { hints: hint.into_iter().collect(), ..of(first, text) }];
        }
        let place = |spot: &Spot| if spot.token == 0 { String::new() } else { format!("token {}{}: ", spot.token, quoted(spot)) };
        let mut messages: Vec<Message> = self.spots.iter().map(|s| of(s, format!("{}{}", place(s), self.what))).collect();
        let more = self.count - self.spots.len();
        if let (Some(last), 1..) = (self.spots.last(), more) {
            messages.push(of(last, format!("and {} more behind this one: {}", grouped(more as u64), self.what)));
        }
        messages
    }

    fn json(&self, out: &mut Json) {
        out.object(|o| {
            o.field("class", |v| v.string(self.class.word()));
            o.field("number", |v| v.number(self.number));
            o.field("code", |v| v.some_text(ruevault::notice_code(self.number).as_bytes()));
            o.field("what", |v| v.string(&self.what));
            o.field("count", |v| v.number(self.count as u64));
            o.field("places", |v| {
                v.array(|a| {
                    for spot in &self.spots {
                        a.item(|v| {
                            v.object(|o| {
                                o.field("line", |v| v.number(spot.line));
                                o.field("column", |v| v.number(spot.column));
                                o.field("token", |v| v.number(spot.token));
                                o.field("text", |v| v.some_text(&spot.said));
                            });
                        });
                    }
                });
            });
        });
    }
}
