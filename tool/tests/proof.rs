//! The house proof: what its page holds.
mod common;
use common::{examples, run, scratch, top};
use ruevault::Sheet;
use std::fs;

fn page(text: &[u8]) -> String {
    let done = run(&["proof", "-", "-o", "-"], text);
    assert_eq!((done.status, done.err.as_str()), (0, ""));
    done.said
}

fn page_of(name: &str) -> String {
    let done = run(&["proof", &format!("examples/{name}.krn"), "-o", "-"], b"");
    assert_eq!((done.status, done.err.as_str()), (0, ""));
    done.said
}

/// The part of a page that is a bar's.
fn bar(page: &str, number: usize) -> &str {
    let (_, rest) = page.split_once(&format!("id=\"bar-{number}\">")).unwrap();
    rest.split_once("</section>").unwrap().0
}

/// The titles of the notes, in the order of the sheet.
fn notes(page: &str) -> Vec<&str> {
    page.split("<g class=\"note\"><title>").skip(1).map(|rest| rest.split_once("</title>").unwrap().0).collect()
}

/// Each tag that opens closes in its order, all `&` begin an entity, and no text has a `<`.
fn well_formed(page: &str) {
    let mut open: Vec<&str> = Vec::new();
    for piece in page.strip_prefix("<!DOCTYPE html>").unwrap().split('<').skip(1) {
        let (tag, text) = piece.split_once('>').unwrap_or_else(|| panic!("{piece}"));
        assert!(!text.contains('>'), "{piece}");
        for rest in text.split('&').skip(1) {
            assert!(["amp;", "lt;", "gt;", "quot;"].iter().any(|e| rest.starts_with(e)), "{piece}");
        }
        let name = tag.split([' ', '/']).next().unwrap();
        match tag.strip_prefix('/') {
            Some(name) => assert_eq!(open.pop(), Some(name)),
            None if tag.ends_with('/') || name == "meta" => {}
            None => open.push(name),
        }
    }
    assert!(open.is_empty(), "{open:?}");
}

/// A page of every example: whole, alone, without a script, and with each note of the sheet once.
#[test]
fn pages_of_all_examples() {
    for name in examples("examples") {
        let text = fs::read(top().join(&name)).unwrap();
        let sheet = Sheet::read(&text).unwrap();
        let done = run(&["proof", &name, "-o", "-"], b"");
        let page = done.said;
        well_formed(&page);
        assert!(!page.contains("<script") && !page.contains("src=") && !page.contains("href=") && !page.contains("url(") && !page.contains("@import"), "{name}");
        assert_eq!(page.replace("http://www.w3.org/2000/svg", "").matches("http").count(), 0);
        let titles = notes(&page);
        assert_eq!(titles.len(), sheet.notes().count(), "{name}");
        for (title, n) in titles.iter().zip(sheet.notes()) {
            assert!(title.starts_with(&format!("line {}, token {}, at ", n.line, n.column)), "{title}");
            assert!(title.contains(&format!(": {n}")), "{title}");
        }
        assert_eq!(page.matches("<section class=\"bar\" id=").count(), sheet.bars().filter(|b| b.part == 0).count());
        for part in sheet.parts() {
            assert!(page.contains(&sheet.part_name(&part)));
        }
        if let Some(title) = sheet.title() {
            assert!(page.contains(&format!("<h1>{title}</h1>")));
        }
    }
}

#[test]
fn onsets_are_exact() {
    let said = page(b"**kern\t**kern\n*M4/4\t*M4/4\n6c\t4.e\n6d\t.\n6e\t.\n.\t8f\n2f\t2g\n=\t=\n*-\t*-\n");
    let at: Vec<&str> = notes(&said).iter().map(|t| t.split(", at ").nth(1).unwrap().split(':').next().unwrap()).collect();
    assert_eq!(at, ["0", "0", "1/6", "1/3", "3/8", "1/2", "1/2"]);
    let said = page_of("sextet");
    assert_eq!(notes(bar(&said, 1)).iter().filter(|t| t.contains("at 3/4: ")).count(), 4);
}

/// An arrow goes from each branch's token to the lane of the voice that the branch has.
#[test]
fn arrows_from_branches_to_lanes() {
    let said = page_of("sextet");
    let arrows: Vec<(u32, u32, u32)> = bar(&said, 1)
        .split("<path class=\"arrow\" ")
        .skip(1)
        .map(|rest| {
            let number = |name: &str| rest.split_once(&format!("{name}=\"")).unwrap().1.split('"').next().unwrap().parse().unwrap();
            (number("data-line"), number("data-token"), number("data-voice"))
        })
        .collect();
    assert_eq!(arrows, [(8, 1, 2), (9, 1, 3), (9, 2, 4), (11, 1, 2), (11, 4, 3)]);
    assert!(bar(&said, 1).contains(">line 11:</text>") && bar(&said, 2).contains(">line 15:</text>"));
    assert!(!bar(&said, 2).contains("class=\"arrow\""));
}

#[test]
fn barlines_meters_keys_and_clefs() {
    let said = page_of("quartet");
    assert!(bar(&said, 3).contains(">repeat end</text>") && bar(&said, 4).contains(">repeat start</text>"));
    assert!(bar(&said, 1).contains("</tspan> alto clef (C3), key D major (2 sharps), meter 2/4</text>"));
    let said = page(b"**kern\n*M4/4\n1c\n=\n*M3/4\n*k[b-]\n*clefF4\n2.c\n==\n*-\n");
    assert!(bar(&said, 2).contains("</tspan> bass clef (F4), key F major (1 flat), meter 3/4</text>"));
    assert!(bar(&said, 2).contains(">final</text>"));
}

#[test]
fn short_and_long_bars() {
    let said = page_of("chorale");
    assert!(bar(&said, 1).contains("<p class=\"warn\">short bar: lasts 1/4, the meter is 4/4</p>"));
    assert!(!bar(&said, 2).contains("class=\"warn\""));
    let said = page(b"**kern\t**kern\n*I\"Alto\t*I\"Flute\n*M3/4\t*M3/4\n2.c\t4d\n.\t4e\n.\t4.f\n=\t=\n2.c\t2.e\n=\t=\n*-\t*-\n");
    assert!(bar(&said, 1).contains("<p class=\"warn\">Flute: long bar: lasts 7/8, the meter is 3/4</p>"), "{said}");
    // A meter that the text doesn't give says nothing.
    assert!(!page(b"**kern\n4c\n=\n4d\n*-\n").contains("<p class=\"warn\">"));
    // The voices must agree about a line.
    assert!(page(b"**kern\t**kern\n4c\t8e\n4d\t8f\n*-\t*-\n").contains("the voices reach line 3 at different times"));
}

#[test]
fn unread_tokens_and_notices_stand_where_they_are() {
    let said = page_of("lost");
    let one = bar(&said, 1);
    let unread: Vec<&str> = one.split("<g class=\"unread\"><title>").skip(1).map(|rest| rest.split_once("</title>").unwrap().0).collect();
    assert_eq!(unread, ["NOT READ: line 8, token 1, `4096c`", "NOT READ: line 9, token 1, `x`", "NOT READ: line 12, token 2, `512ff`"]);
    assert!(one.contains("<p class=\"warn\">tokens of this bar were not read: the times behind them are uncertain</p>"));
    assert!(one.contains("<title>line 7, token 1, at 0: quarter C4; stems, not imported</title>"));
    assert_eq!(one.matches("class=\"noticed\"").count(), 2);
    assert!(one.contains("<li>stems, not imported: line 7, token 1; line 7, token 2</li>"));
    assert!(said.contains("<h2>Lost</h2>") && said.contains("<h2>Ignored</h2>") && said.contains("<h2>Harmless</h2>"));
    let said = page(b"**kern\n4c\n==\n0y\n*-\n");
    assert!(said.contains("<h2>Behind the last bar</h2>") && said.contains("NOT READ: line 4, token 1, `0y`"));
}

/// What a text has is text on the page.
#[test]
fn nothing_of_the_text_is_markup() {
    let said = page("!!!OTL: <b>\"A\" & B</b>\n**kern\n*I\"<script>\u{202e}\n4c<\n4096d&\n*^\n4e\t4g\n*-\t*-\n".as_bytes());
    well_formed(&said);
    assert!(said.contains("<h1>&lt;b&gt;&quot;A&quot; &amp; B&lt;/b&gt;</h1>") && said.contains("&lt;script&gt;\\u{202e}"), "{said}");
}

#[test]
fn a_page_is_written_like_a_sheet() {
    let folder = scratch("proof");
    let page = folder.join("a.html");
    let name = page.to_str().unwrap();
    assert_eq!(run(&["proof", "examples/song.krn", "-o", name], b"").status, 0);
    let first = fs::read(&page).unwrap();
    assert!(first.starts_with(b"<!DOCTYPE html>\n"));
    let refused = run(&["proof", "examples/broken/12-no-note.krn", "-o", name], b"");
    assert_eq!(refused.status, 1);
    assert!(refused.err.starts_with("examples/broken/12-no-note.krn:1:1: error[12]: "));
    assert_eq!(fs::read(&page).unwrap(), first);
    let text = folder.join("a.krn");
    fs::copy(top().join("examples/song.krn"), &text).unwrap();
    let same = run(&["proof", text.to_str().unwrap(), "-o", text.to_str().unwrap()], b"");
    assert!(same.status == 2 && same.err.contains("the output is the input"));
    fs::remove_dir_all(folder).unwrap();
}
