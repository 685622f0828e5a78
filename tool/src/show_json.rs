//! A sheet as JSON (docs/JSON.md): the numbers are the sheet's own, parts and voices from 0.
use crate::account;
use crate::json::Json;
use crate::score::{Lines, Measure, Path, Score};
use crate::unread::{Unread, position_of_column};
use crate::rows;
use ruevault::{Bar, Note, Notice, Part, Pitch, Span};
use std::io::{self, Write};

pub fn show(file: &str, text: Option<&[u8]>, sheet: &[u8], out: &mut dyn Write) -> io::Result<()> {
    let score = Score::new(text, sheet);
    let mut json = Json::new(out);
    json.object(|o| {
        o.field("schema", |v| v.string("ruevault-show-1"));
        o.field("file", |v| v.string(file));
        o.field("accepted", |v| v.boolean(true));
        o.field("with_text", |v| v.boolean(text.is_some()));
        if let Some(end) = &score.end {
            for (name, at) in [("title", end.title), ("composer", end.composer), ("lyricist", end.lyricist)] {
                o.field(name, |v| span(&score, at, v));
            }
        }
        o.field("parts", |v| v.array(|a| score.parts.iter().zip(&score.labels).for_each(|(p, label)| a.item(|v| part(&score, p, label, v)))));
        let mut behind = Lines::default();
        o.field("bars", |v| {
            v.array(|a| {
                let all = score.each(|m| {
                    a.item(|v| measure(&score, &m, v));
                    if a.failed() { Err(io::ErrorKind::BrokenPipe.into()) } else { Ok(()) }
                });
                behind = all.unwrap_or_default();
            });
        });
        o.field("behind", |v| {
            v.object(|o| {
                o.field("paths", |v| paths(&behind.paths, v));
                o.field("unread", |v| unread(&score, &behind.unread, v));
            });
        });
        o.field("notices", |v| v.array(|a| notices(&score, a)));
        if let Some(text) = text {
            o.field("account", |v| v.object(|o| account::of(text, sheet, 1).json(o)));
        }
    });
    json.end()
}

/// A piece of the text; without the text its place.
fn span(score: &Score, at: Span, out: &mut Json) {
    match score.text {
        Some(text) => out.some_text(at.of(text)),
        None if at.len == 0 => out.null(),
        None => out.object(|o| {
            o.field("at", |v| v.number(at.at));
            o.field("len", |v| v.number(at.len));
        }),
    }
}

fn part(score: &Score, p: &Part, label: &str, out: &mut Json) {
    out.object(|o| {
        o.field("part", |v| v.number(p.part));
        o.field("label", |v| v.string(label));
        o.field("name_given", |v| v.boolean(p.name_given));
        o.field("name", |v| span(score, p.name, v));
        o.field("short_name", |v| span(score, p.short_name, v));
        o.field("clef", |v| v.number(p.clef.number()));
    });
}

fn measure(score: &Score, m: &Measure, out: &mut Json) {
    out.object(|o| {
        o.field("bar", |v| v.number(m.number));
        o.field("labels", |v| v.array(|a| m.lines.labels.iter().for_each(|l| a.item(|v| v.text(l)))));
        o.field("first_line", |v| v.number(m.lines.first));
        o.field("last_line", |v| v.number(m.lines.last));
        o.field("parts", |v| v.array(|a| m.bars.iter().for_each(|b| a.item(|v| bar(score, b, v)))));
        o.field("notes", |v| v.array(|a| m.notes.iter().for_each(|n| a.item(|v| note(n, v)))));
        o.field("unread", |v| unread(score, &m.lines.unread, v));
        o.field("paths", |v| paths(&m.lines.paths, v));
    });
}

fn bar(score: &Score, b: &Bar, out: &mut Json) {
    let (meter_given, key_given) = score.gives(b);
    out.object(|o| {
        o.field("part", |v| v.number(b.part));
        o.field("left", |v| v.number(b.left.number()));
        o.field("right", |v| v.number(b.right.number()));
        o.field("clef", |v| v.number(b.clef.map_or(0, |c| c.number())));
        o.field("numerator", |v| v.number(b.meter.map_or(0, |m| m.numerator)));
        o.field("denominator", |v| v.number(b.meter.map_or(0, |m| m.denominator)));
        o.field("meter_given", |v| v.boolean(b.meter.is_some() && meter_given));
        o.field("sign", |v| v.number(b.sign.map_or(0, |s| s.number())));
        o.field("key", |v| v.boolean(b.key_given));
        o.field("fifths", |v| v.number(b.fifths));
        o.field("mode", |v| v.number(b.mode.number()));
        o.field("key_given", |v| v.boolean(b.key_given && key_given));
        o.field("tempo", |v| v.number(b.tempo));
    });
}

fn note(n: &Note, out: &mut Json) {
    out.object(|o| {
        for (name, number) in [
            ("part", u32::from(n.part)),
            ("voice", n.voice.into()),
            ("line", n.line),
            ("token", n.column.into()),
            ("value", n.value.number().into()),
            ("dots", n.dots.into()),
            ("actual", n.actual.into()),
            ("normal", n.normal.into()),
            ("beam", n.beam.map_or(0, |b| b.number()).into()),
            ("flags", n.flags.into()),
        ] {
            o.field(name, |v| v.number(number));
        }
        o.field("pitches", |v| v.array(|a| n.pitches().for_each(|p| a.item(|v| pitch(&p, v)))));
        o.field("articulations", |v| v.array(|a| n.articulations().for_each(|x| a.item(|v| v.number(x.number())))));
    });
}

fn pitch(p: &Pitch, out: &mut Json) {
    out.object(|o| {
        o.field("step", |v| v.number(p.step));
        o.field("octave", |v| v.number(p.octave));
        o.field("alter", |v| v.number(p.alter));
    });
}

fn unread(score: &Score, all: &[Unread], out: &mut Json) {
    out.array(|a| {
        for u in all {
            a.item(|v| {
                v.object(|o| {
                    o.field("part", |v| v.number(u.part));
                    o.field("voice", |v| match score.voice_of(u) {
                        Some(voice) => v.number(voice),
                        None => v.null(),
                    });
                    o.field("line", |v| v.number(u.line));
                    o.field("token", |v| v.number(u.column as u64));
                    o.field("text", |v| v.text(u.token));
                });
            });
        }
    });
}

fn paths(all: &[Path], out: &mut Json) {
    out.array(|a| {
        for path in all {
            a.item(|v| {
                v.object(|o| {
                    o.field("line", |v| v.number(path.number));
                    o.field("text", |v| v.text(path.bytes));
                });
            });
        }
    });
}

fn notices(score: &Score, a: &mut Json) {
    let numbers: Vec<u64> = score.notices.iter().map(|n| n.line.into()).collect();
    let lines = score.text.map(|text| rows::lines_at(text, &numbers));
    for (i, n) in score.notices.iter().enumerate() {
        let column = lines.as_ref().map(|lines| position_of_column(lines[i], n.column));
        a.item(|v| notice(score, n, column, v));
    }
}

fn notice(score: &Score, n: &Notice, column: Option<u64>, out: &mut Json) {
    out.object(|o| {
        o.field("number", |v| v.number(n.number));
        o.field("code", |v| v.string(&ruevault::notice_code(n.number)));
        o.field("reason", |v| v.string(&ruevault::notice_reason(n.number)));
        o.field("line", |v| v.number(n.line));
        o.field("token", |v| v.number(n.column));
        if let Some(column) = column {
            o.field("column", |v| v.number(column));
        }
        o.field("preserved", |v| if n.number == 17 { v.text(n.bytes) } else { span(score, n.value, v) });
        if n.number == 1 {
            o.field("key", |v| span(score, n.key, v));
        }
    });
}
