//! The house proof: a sheet as one page that needs nothing else, each bar's voices as lanes on a time axis.
use crate::account::{self, Class};
use crate::score::{Measure, Path, Score};
use crate::show;
use crate::time::{self, Time, Times};
use crate::unread::Unread;
use crate::words;
use ruevault::{Articulation, Barline, Meter, Note, Notice, Pitch};
use std::fmt::Write as _;
use std::io::{self, Write};

/// Where the time axis begins, how high a lane is, and a row of text.
const LEFT: f64 = 110.0;
const LANE: f64 = 26.0;
const ROW: f64 = 20.0;
/// How wide the shortest note of a bar is to be, and how wide a bar at least and at most.
const SHORTEST: f64 = 70.0;
const WIDTHS: (f64, f64) = (260.0, 1500.0);
/// One colour for a voice; the last for lines of the staff without any note.
const COLOURS: [&str; 5] = ["#1f5fa8", "#b8560f", "#2a7d3c", "#8a3f9e", "#666666"];

const STYLE: &str = "body{font:15px/1.4 system-ui,sans-serif;color:#111;background:#fff;margin:1.5em auto;max-width:1640px;padding:0 1em}\
h1{margin:0 0 .2em}h2{font-size:1.05em;margin:0 0 .2em}.by{margin:0 0 1em}p{margin:.3em 0}ul{margin:.2em 0;padding-left:1.4em}\
.bar{break-inside:avoid;border-top:1px solid #bbb;padding:.7em 0 .4em}svg{display:block;max-width:100%;height:auto}\
svg text{font:12px system-ui,sans-serif;fill:#111}svg .small{font-size:10px;fill:#444}svg .part{font-weight:600}svg .name{paint-order:stroke;stroke:#fff;stroke-width:5px;stroke-linejoin:round}svg .source{font-family:ui-monospace,monospace}\
.warn{color:#a40000}svg .warn{fill:#a40000}.key span{display:inline-block;padding:0 .5em;margin-right:.5em;border:2px solid}\
*{-webkit-print-color-adjust:exact;print-color-adjust:exact}@media print{body{margin:0;max-width:none;font-size:11px}}";

fn escaped(text: &str) -> String {
    let mut said = String::new();
    for c in text.chars() {
        match c {
            '&' => said += "&amp;",
            '<' => said += "&lt;",
            '>' => said += "&gt;",
            '"' => said += "&quot;",
            c => said.push(c),
        }
    }
    said
}

fn plain(bytes: &[u8]) -> String {
    escaped(&words::plain(bytes))
}

pub fn page(text: &[u8], sheet: &[u8], name: &str, out: &mut dyn Write) -> io::Result<()> {
    let score = Score::new(Some(text), sheet);
    let account = account::of(text, sheet, 1);
    let end = score.end;
    let given = |at: Option<ruevault::Span>| at.map(|at| plain(score.text_of(at))).filter(|said| !said.is_empty());
    let title = given(end.map(|e| e.title)).unwrap_or_else(|| escaped(name));
    writeln!(out, "<!DOCTYPE html>\n<html lang=\"en\">\n<head>\n<meta charset=\"utf-8\">\n<meta name=\"viewport\" content=\"width=device-width\">")?;
    writeln!(out, "<title>{title}</title>\n<style>{STYLE}</style>\n</head>\n<body>\n<h1>{title}</h1>")?;
    let by: Vec<String> = [given(end.map(|e| e.composer)), given(end.map(|e| e.lyricist)), Some(escaped(name))].into_iter().flatten().collect();
    writeln!(out, "<p class=\"by\">{}</p>\n<p>Parts, from the top of the score:</p>\n<ul>", by.join(" · "))?;
    for (p, label) in score.parts.iter().zip(&score.labels) {
        let short = score.text_of(p.short_name);
        let short = if short.is_empty() { String::new() } else { format!(" ({})", plain(short)) };
        let given = score.clefs.get(usize::from(p.part)).is_none_or(|given| *given);
        writeln!(out, "<li>{}{short}, {}{}</li>", escaped(label), p.clef, if given { "" } else { " (not given)" })?;
    }
    let voices: String = (0..4).map(|v| format!("<span style=\"border-color:{0};background:{0}22\">voice {1}</span>", COLOURS[v], v + 1)).collect();
    writeln!(out, "</ul>\n<p class=\"key\">{voices}</p>\n<p>{}</p>", escaped(&account.summary()))?;
    let mut page = Page { score: &score, meters: vec![None; score.parts.len()], notices: &score.notices };
    let behind = score.each(|measure| page.bar(&measure, out))?;
    if !behind.unread.is_empty() || !behind.paths.is_empty() || !page.notices.is_empty() {
        writeln!(out, "<section class=\"bar\">\n<h2>Behind the last bar</h2>\n<ul>")?;
        for u in &behind.unread {
            writeln!(out, "<li class=\"warn\">{}</li>", escaped(&show::not_read(u)))?;
        }
        for path in &behind.paths {
            writeln!(out, "<li>line {}: {}</li>", path.number, plain(path.bytes))?;
        }
        list_notices(&score, page.notices, out)?;
        writeln!(out, "</ul>\n</section>")?;
    }
    for (class, heading) in [(Class::Lost, "Lost"), (Class::Ignored, "Ignored"), (Class::Harmless, "Harmless")] {
        if account.total(class) > 0 {
            let groups: Vec<String> = account.of_class(class).map(|g| format!("<li>{}</li>", escaped(&g.said()))).collect();
            writeln!(out, "<section class=\"bar\">\n<h2>{heading}</h2>\n<ul>{}</ul>\n</section>", groups.join("\n"))?;
        }
    }
    writeln!(out, "</body>\n</html>")
}

/// Notices by line, like ones together.
fn list_notices(score: &Score, notices: &[Notice], out: &mut dyn Write) -> io::Result<()> {
    let mut said: Vec<(String, Vec<String>)> = Vec::new();
    for n in notices {
        let place = if n.column == 0 { format!("line {}", n.line) } else { format!("line {}, token {}", n.line, n.column) };
        for what in account::whats(n, score.text.unwrap_or_default()) {
            match said.iter_mut().find(|(w, _)| *w == what) {
                Some((_, places)) => places.push(place.clone()),
                None => said.push((what, vec![place.clone()])),
            }
        }
    }
    for (what, places) in said {
        let (shown, more) = places.split_at(places.len().min(4));
        let more = if more.is_empty() { String::new() } else { format!("; and {} more", more.len()) };
        writeln!(out, "<li>{}: {}{more}</li>", escaped(&what), shown.join("; "))?;
    }
    Ok(())
}

/// `B♭3`.
fn short_pitch(p: Pitch) -> String {
    let sign = match p.alter {
        0 => "",
        1 => "♯",
        -1 => "♭",
        2 => "×",
        -2 => "♭♭",
        a if a > 0 => "♯..",
        _ => "♭..",
    };
    format!("{}{sign}{}", p.letter(), p.octave)
}

fn short_note(n: &Note) -> String {
    let mut said = if n.rest() { "rest".to_string() } else { n.pitches().map(short_pitch).collect::<Vec<_>>().join(" ") };
    if n.tie_end() {
        said.insert(0, '⁀');
    }
    if n.tie_start() {
        said.push('⁀');
    }
    said
}

/// The articulations, in small words.
fn articulated(n: &Note) -> String {
    let short = |a| match a {
        Articulation::Staccato => "stacc.",
        Articulation::Accent => "acc.",
        Articulation::Tenuto => "ten.",
        Articulation::Fermata => "ferm.",
        Articulation::Trill => "tr.",
    };
    let words: Vec<&str> = n.articulations().map(short).collect();
    if words.is_empty() { String::new() } else { format!("<tspan class=\"small\"> {}</tspan>", words.join(", ")) }
}

/// Lanes of a bar: part and voice, the voice 4 for lines without any note, with the place of each.
struct Lanes(Vec<(u16, usize, f64)>);

impl Lanes {
    fn at(&self, part: u16, voice: usize) -> Option<f64> {
        self.0.iter().find(|(p, v, _)| (*p, *v) == (part, voice)).map(|(.., y)| *y)
    }
}

struct Page<'s, 'a> {
    score: &'s Score<'a>,
    /// Of each part, as it holds now; none before one is given.
    meters: Vec<Option<Meter>>,
    /// Those that haven't been told yet.
    notices: &'s [Notice<'a>],
}

impl Page<'_, '_> {
    fn bar(&mut self, measure: &Measure, out: &mut dyn Write) -> io::Result<()> {
        let score = self.score;
        for bar in &measure.bars {
            // A meter that is filled in says nothing of how long a bar is.
            if let (Some(meter), Some(held), (true, _)) = (bar.meter, self.meters.get_mut(usize::from(bar.part)), score.gives(bar)) {
                *held = Some(meter);
            }
        }
        let times = time::of(measure, |u| score.voice_of(u));
        let told = self.notices.partition_point(|n| u64::from(n.line) <= measure.lines.last);
        let (notices, rest) = self.notices.split_at(told);
        self.notices = rest;
        writeln!(out, "<section class=\"bar\" id=\"bar-{0}\">\n<h2>{1}</h2>", measure.number, escaped(&show::heading(measure)))?;
        for said in self.lengths(measure, &times) {
            writeln!(out, "<p class=\"warn\">{}</p>", escaped(&said))?;
        }
        out.write_all(self.drawn(measure, &times, notices).as_bytes())?;
        if !notices.is_empty() {
            writeln!(out, "<ul>")?;
            list_notices(score, notices, out)?;
            writeln!(out, "</ul>")?;
        }
        writeln!(out, "</section>")
    }

    /// What is to be said of how long the bar is, and of lines that the voices reach at different times.
    fn lengths(&self, measure: &Measure, times: &Times) -> Vec<String> {
        let mut said: Vec<(String, Vec<&str>)> = Vec::new();
        for (p, label) in self.score.parts.iter().zip(&self.score.labels) {
            let (Some(end), Some(Some(meter))) = (times.ends.get(&p.part), self.meters.get(usize::from(p.part))) else { continue };
            let whole = Time::new(meter.numerator.into(), u128::from(meter.denominator).max(1));
            let what = match end.cmp(&whole) {
                std::cmp::Ordering::Equal => continue,
                std::cmp::Ordering::Less => "short",
                std::cmp::Ordering::Greater => "long",
            };
            let what = format!("{what} bar: lasts {end}, the meter is {meter}");
            match said.iter_mut().find(|(w, _)| *w == what) {
                Some((_, parts)) => parts.push(label),
                None => said.push((what, vec![label])),
            }
        }
        let with_notes = times.ends.len();
        let name = |(what, parts): (String, Vec<&str>)| if parts.len() == with_notes { what } else { format!("{}: {what}", parts.join(", ")) };
        let mut said: Vec<String> = said.into_iter().map(name).collect();
        said.extend(times.torn.iter().map(|line| format!("the voices reach line {line} at different times")));
        if !measure.lines.unread.is_empty() {
            said.push("tokens of this bar were not read: the times behind them are uncertain".to_string());
        }
        said
    }

    fn lanes(&self, measure: &Measure) -> (Lanes, f64) {
        let mut lanes = Vec::new();
        let mut y = 34.0;
        for p in &self.score.parts {
            let part = u16::from(p.part);
            let mut here = [false; 5];
            measure.notes.iter().filter(|n| n.part == p.part).for_each(|n| here[usize::from(n.voice).min(4)] = true);
            measure.lines.unread.iter().filter(|u| u.part == part).for_each(|u| here[self.score.voice_of(u).map_or(4, usize::from)] = true);
            for branch in measure.lines.paths.iter().flat_map(|path| &path.branches).filter(|b| b.part == Some(part)) {
                here[self.score.voice_of_thread(branch.thread).map_or(4, usize::from)] = true;
            }
            y += ROW;
            for (voice, _) in here.iter().enumerate().filter(|(_, here)| **here) {
                lanes.push((part, voice, y));
                y += LANE;
            }
            y += 6.0;
        }
        (Lanes(lanes), y)
    }

    fn drawn(&self, measure: &Measure, times: &Times, notices: &[Notice]) -> String {
        let shortest = measure.notes.iter().map(|n| time::length_of(n).number()).filter(|l| *l > 0.0).fold(f64::INFINITY, f64::min);
        let length = times.end().number().max(0.03);
        let width = (length / shortest.min(length) * SHORTEST).clamp(WIDTHS.0, WIDTHS.1);
        let x = |time: Time| LEFT + time.number() / length * width;
        let (lanes, bottom) = self.lanes(measure);
        let paths = &measure.lines.paths;
        let height = bottom + 6.0 + ROW * 1.4 * paths.len() as f64 + 4.0;
        let names: Vec<(String, String)> = self.score.parts.iter().zip(&self.score.labels).map(|(p, label)| (label.clone(), self.settings(measure, p.part, &lanes))).collect();
        let texts = names.iter().map(|(label, settings)| label.chars().count() as f64 * 7.6 + settings.chars().count() as f64 * 6.9 + 14.0);
        let sources = paths.iter().map(|path| LEFT + path.bytes.split(|b| *b == b'\t').map(|t| 22.0 + 8.0 * words::shortened(t).chars().count() as f64).sum::<f64>());
        let right = texts.chain(sources).fold(LEFT + width + 80.0 + 60.0 * measure.lines.unread.len().min(6) as f64, f64::max);
        let mut svg = format!("<svg xmlns=\"http://www.w3.org/2000/svg\" viewBox=\"0 0 {right:.0} {height:.0}\" width=\"{right:.0}\" height=\"{height:.0}\">\n");
        axis(&mut svg, times, x, bottom);
        let first = measure.bars.first();
        barline(&mut svg, first.map_or(Barline::Normal, |b| b.left), LEFT, 34.0, bottom, true);
        barline(&mut svg, first.map_or(Barline::Normal, |b| b.right), LEFT + width, 34.0, bottom, false);
        self.names(&mut svg, &names, &lanes);
        for n in &measure.notes {
            let Some(y) = lanes.at(n.part.into(), usize::from(n.voice).min(4)) else { continue };
            let onset = times.of_line(n.line.into());
            let noticed = notices.iter().filter(|k| (k.line, k.column) == (n.line, n.column));
            let noticed: Vec<String> = noticed.flat_map(|k| account::whats(k, self.score.text.unwrap_or_default())).collect();
            let wide = (time::length_of(n).number() / length * width - 2.0).max(2.0);
            note(&mut svg, n, (x(onset), y, wide), onset, &noticed);
        }
        // Side by side where their times aren't known.
        let mut free: Vec<(f64, f64)> = Vec::new();
        for u in &measure.lines.unread {
            let voice = self.score.voice_of(u).map_or(4, usize::from);
            let Some(y) = lanes.at(u.part, voice) else { continue };
            let taken = free.iter().filter(|(lane, _)| *lane == y).map(|(_, end)| *end).fold(0.0, f64::max);
            let at = x(times.of_line(u.line)).max(taken);
            free.push((y, at + unread(&mut svg, u, at, y, right) + 2.0));
        }
        for (i, path) in paths.iter().enumerate() {
            self.path(&mut svg, path, bottom + 6.0 + ROW * 1.4 * (i as f64 + 0.7), &lanes, |line| x(times.behind(line)));
        }
        svg + "</svg>\n"
    }

    /// What a bar sets for a part, and whether it has no notes.
    fn settings(&self, measure: &Measure, part: u8, lanes: &Lanes) -> String {
        let settings = measure.bars.get(usize::from(part)).map(|b| words::settings(b, self.score.gives(b))).unwrap_or_default();
        let none = !lanes.0.iter().any(|(p, ..)| *p == u16::from(part));
        match (none, settings.is_empty()) {
            (true, true) => "no notes".to_string(),
            (true, false) => format!("{settings}; no notes"),
            _ => settings,
        }
    }

    /// Part names with what the bar sets, and the voices beside their lanes.
    fn names(&self, svg: &mut String, names: &[(String, String)], lanes: &Lanes) {
        let mut y = 34.0;
        for (p, (label, settings)) in self.score.parts.iter().zip(names) {
            let _ = writeln!(svg, "<text class=\"name\" x=\"4\" y=\"{:.0}\"><tspan class=\"part\">{}</tspan> {}</text>", y + 14.0, escaped(label), escaped(settings));
            y += ROW;
            for (_, voice, at) in lanes.0.iter().filter(|(part, ..)| *part == u16::from(p.part)) {
                let said = if *voice < 4 { format!("voice {}", voice + 1) } else { "no voice".to_string() };
                let _ = writeln!(svg, "<text x=\"{:.0}\" y=\"{:.0}\" text-anchor=\"end\" style=\"fill:{}\">{said}</text>", LEFT - 36.0, at + 16.0, COLOURS[*voice]);
                y += LANE;
            }
            y += 6.0;
        }
    }

    /// A source line, and an arrow from each branch's token to its lane.
    fn path(&self, svg: &mut String, path: &Path, y: f64, lanes: &Lanes, x: impl Fn(u64) -> f64) {
        let _ = write!(svg, "<text x=\"4\" y=\"{:.0}\">line {}:</text>", y + 4.0, path.number);
        let mut at = LEFT;
        for (i, token) in path.bytes.split(|b| *b == b'\t').enumerate() {
            let said = words::shortened(token);
            let _ = write!(svg, "<text class=\"source\" x=\"{at:.0}\" y=\"{:.0}\">{}</text>", y + 4.0, escaped(&said));
            for branch in path.branches.iter().filter(|b| b.token == i) {
                let voice = self.score.voice_of_thread(branch.thread);
                let lane = branch.part.and_then(|part| lanes.at(part, voice.map_or(4, usize::from)));
                if let (Some(lane), Some(voice)) = (lane, voice) {
                    let (from, to, tip) = (at + 7.0, x(path.number) - 1.0, lane + LANE / 2.0);
                    let colour = COLOURS[usize::from(voice).min(4)];
                    let _ = write!(
                        svg,
                        "<path class=\"arrow\" data-line=\"{}\" data-token=\"{}\" data-voice=\"{}\" d=\"M{from:.1} {:.1} C{from:.1} {:.1} {:.1} {tip:.1} {to:.1} {tip:.1}\" fill=\"none\" stroke=\"{colour}\" stroke-width=\"1.5\"/><path d=\"M{to:.1} {tip:.1} l-7 -4 v8 z\" fill=\"{colour}\"/>",
                        path.number,
                        i + 1,
                        voice + 1,
                        y - 8.0,
                        y - 30.0,
                        to - 26.0
                    );
                }
            }
            at += 22.0 + 8.0 * said.chars().count() as f64;
        }
        svg.push('\n');
    }
}

/// The onsets, exactly, above a line for each.
fn axis(svg: &mut String, times: &Times, x: impl Fn(Time) -> f64, bottom: f64) {
    let mut free = [f64::MIN; 2];
    for onset in times.onsets() {
        let (at, said) = (x(onset), onset.to_string());
        let _ = writeln!(svg, "<line x1=\"{at:.1}\" y1=\"30\" x2=\"{at:.1}\" y2=\"{bottom:.0}\" stroke=\"#ddd\"/>");
        let half = said.len() as f64 * 3.2 + 2.0;
        if let Some(row) = free.iter().position(|free| at - half > *free) {
            free[row] = at + half;
            let _ = writeln!(svg, "<text class=\"small\" x=\"{at:.1}\" y=\"{}\" text-anchor=\"middle\">{said}</text>", 26 - 12 * row);
        }
    }
}

fn barline(svg: &mut String, kind: Barline, x: f64, top: f64, bottom: f64, left: bool) {
    let mut line = |at: f64, wide: f64, dash: &str| {
        let _ = write!(svg, "<line x1=\"{at:.1}\" y1=\"{top:.0}\" x2=\"{at:.1}\" y2=\"{bottom:.0}\" stroke=\"#111\" stroke-width=\"{wide}\"{dash}/>");
    };
    let away = if left { -1.0 } else { 1.0 };
    match kind {
        Barline::Normal => line(x, 1.0, ""),
        Barline::Double => [0.0, 4.0].into_iter().for_each(|d| line(x + away * d, 1.0, "")),
        Barline::Final | Barline::RepeatStart | Barline::RepeatEnd => {
            line(x, 1.0, "");
            line(x + away * 5.0, 4.0, "");
        }
        Barline::Invisible => line(x, 1.0, " stroke-dasharray=\"2 4\""),
    }
    if matches!(kind, Barline::RepeatStart | Barline::RepeatEnd) {
        for dy in [-6.0, 6.0] {
            let _ = write!(svg, "<circle cx=\"{:.1}\" cy=\"{:.1}\" r=\"2.5\" fill=\"#111\"/>", x - away * 5.0, (top + bottom) / 2.0 + dy);
        }
    }
    let _ = writeln!(svg, "<text class=\"small\" x=\"{:.1}\" y=\"{:.0}\"{}>{}</text>", x + away * 10.0, bottom - 2.0, if left { " text-anchor=\"end\"" } else { "" }, if kind == Barline::Normal { "" } else { kind.words() });
}

fn note(svg: &mut String, n: &Note, (x, y, wide): (f64, f64, f64), onset: Time, noticed: &[String]) {
    let colour = COLOURS[usize::from(n.voice).min(4)];
    let mut title = format!("line {}, token {}, at {onset}: {n}", n.line, n.column);
    noticed.iter().for_each(|what| title += &format!("; {what}"));
    let _ = write!(svg, "<g class=\"note\"><title>{}</title>", escaped(&title));
    if n.grace() {
        let _ = write!(svg, "<circle cx=\"{x:.1}\" cy=\"{:.1}\" r=\"4\" fill=\"{colour}\"/><text class=\"small\" x=\"{:.1}\" y=\"{:.1}\">{}</text>", y + 4.0, x + 6.0, y + 8.0, escaped(&short_note(n)));
    } else {
        let dash = if n.rest() { " stroke-dasharray=\"3 3\"" } else { "" };
        let fill = if n.rest() { "#fff".to_string() } else { format!("{colour}22") };
        let _ = write!(svg, "<rect x=\"{x:.1}\" y=\"{y:.1}\" width=\"{wide:.1}\" height=\"{:.0}\" rx=\"3\" fill=\"{fill}\" stroke=\"{colour}\" stroke-width=\"1.5\"{dash}/>", LANE - 4.0);
        let _ = write!(svg, "<svg x=\"{x:.1}\" y=\"{y:.1}\" width=\"{wide:.1}\" height=\"{LANE:.0}\"><text x=\"4\" y=\"15\">{}{}</text></svg>", escaped(&short_note(n)), articulated(n));
    }
    if !noticed.is_empty() {
        let _ = write!(svg, "<circle class=\"noticed\" cx=\"{:.1}\" cy=\"{:.1}\" r=\"2.5\" fill=\"#a40000\"/>", x + wide - 4.0, y + 4.0);
    }
    svg.push_str("</g>\n");
}

/// Answers how wide it is.
fn unread(svg: &mut String, u: &Unread, x: f64, y: f64, right: f64) -> f64 {
    let token = words::shortened(u.token);
    let wide = (token.chars().count() as f64 * 7.5 + 12.0).min((right - x).max(30.0));
    let _ = writeln!(
        svg,
        "<g class=\"unread\"><title>{}</title><rect x=\"{x:.1}\" y=\"{y:.1}\" width=\"{wide:.1}\" height=\"{:.0}\" fill=\"#ffe3e3\" stroke=\"#a40000\" stroke-width=\"1.5\" stroke-dasharray=\"2 2\"/><svg x=\"{x:.1}\" y=\"{y:.1}\" width=\"{wide:.1}\" height=\"{LANE:.0}\"><text class=\"warn\" x=\"4\" y=\"15\">{}</text></svg></g>",
        escaped(&show::not_read(u)),
        LANE - 4.0,
        escaped(&token)
    );
    wide
}
