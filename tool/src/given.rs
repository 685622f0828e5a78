//! Whether a text gives its first bar's meter and key. A sheet's bar 1 always has both, filled in where the text has none; a later bar has only
//! what is given. So the library reads the first bar once more behind another one, as a second.
use crate::rows;
use crate::unread::Place;
use ruevault::{Bar, Record};

pub fn first_bar(text: &[u8], places: &[Place]) -> Vec<Bar> {
    asked(text, places).unwrap_or_default()
}

fn asked(text: &[u8], places: &[Place]) -> Option<Vec<Bar>> {
    let note = u64::from(places.first()?.line);
    let mut records = rows::lines(text).filter(|(.., line)| !line.is_empty() && line[0] != b'!');
    let (_, _, header) = records.next()?;
    let width = header.split(|b| *b == b'\t').count();
    let mut asked = header.to_vec();
    for token in ["4r", "="] {
        asked.push(b'\n');
        asked.extend(vec![token; width].join("\t").bytes());
    }
    asked.push(b'\n');
    // Up to the barline that closes the bar.
    for (.., line) in records.take_while(|(number, _, line)| line[0] != b'=' || *number <= note) {
        asked.extend(line);
        asked.push(b'\n');
    }
    let sheet = ruevault::sheet_of(&asked).ok()?;
    let bar = |record| if let Record::Bar(bar) = record { Some(bar) } else { None };
    let bars: Vec<Bar> = ruevault::walk(&sheet).filter_map(bar).filter(|b| b.number == 2).collect();
    (!bars.is_empty()).then_some(bars)
}
