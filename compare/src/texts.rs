//! The replayed list of texts with their sheets or refusals. What the source's report holds of each text is the source's (the list is
//! only written where the encoder's sheet says the same, request E7 sets a signature apart, the text has a `%`, which request E3 takes out of the
//! comparison, or it is refused with 17, which the source takes); lines, columns, spans and the order of records are the encoder's, which was written from document 01.
use crate::check;
use crate::encoder;
use crate::generate::{self, Seed};
use crate::ratios;
use std::io::{Read, Write};
use std::process::{Command, ExitCode, Stdio};

/// The room for a sheet in the program that replays the list.
pub const ROOM: usize = 65_536;

fn joined(token: &str, times: usize) -> String {
    vec![token; times].join("\t")
}

/// Texts by hand: each refusal, each notice, both edges.
pub fn picked() -> Vec<Vec<u8>> {
    let wide = |n: usize, rest: &str| format!("{}\n{rest}", joined("**kern", n)).into_bytes();
    let kern = |rest: &str| format!("**kern\n{rest}").into_bytes();
    let two = |rest: &str| format!("**kern\t**kern\n{rest}").into_bytes();
    let mut texts: Vec<Vec<u8>> = [
        "", "\n", "!c\n!!d\n", "\r\r\n\r\n", "!!!OTL: a\n", "**kern\n4c\n*-\n", "**kern\n4c\n*-", "**kern\r\n4c\r\r\n*-\r\n", "**kern\n*-\n", "**kern\n4r\n*-\n", "**kern",
        // 3, 4, 5
        "4c\n", "**kern\tx\n4c\t4c\n", "**text\n4c\n*-\n", "**text\t**dyn\n4c\t.\n", "*kern\n4c\n", "**kern \n4c\n", "=1\n**kern\n4c\n", "**kern\t\n4c\t\n",
        // the record behind the last spine
        "**kern\n4c\n*-\n4d\n4e\n", "**kern\n4c\n*-\n\n!x\n", "**kern\n4c\n*-\n*-\n*^\n", "**kern\n4c\n*-\n!!!OTL: late\n= \n!!!COM: later\n",
        // 6, 7
        "**kern\t**kern\n4c\n", "**kern\n4c\t4d\n", "**kern\n4c\t\n*-\n", "**kern\n4c\t\t\t\n*-\n", "**kern\t**kern\n4c\t4c\n*\t4d\n", "**kern\t**kern\n4c\t4c\n*\t\n", "**kern\t**kern\n*M4/4\n4c\t4c\n",
        "**kern\t**kern\n*^\n", "**kern\t**kern\n=1\n4c\t4c\n", "**kern\t**kern\t**kern\n=1\t=1\n4c\t4c\t4c\n=2\t=3\n", "**kern\t**kern\t**kern\n4c\t4c\t4c\n=:|\t=:|\n*\t*foo\n4d\t4d\t4d\n",
        // 11, 12
        "!!!COM: x\n!!! y\n", "**kern\n4x\n*-\n", "**kern\n.\n*-\n",
        // references
        "!!!OTL: \u{a0}\u{2003}a b\u{3000}\n**kern\n4c\n", "!!!OTL:a\n!!!OTL: b\n!!!COM:\n!!!LYR\u{85}:\u{1680}l\n**kern\n4c\n", "!!!\u{2029}OTL\u{205f} : v : w\n!!!otl: x\n!!! : y\n!!!OTL\n**kern\n4c\n!!!COM: behind\n",
        "!!!OTL: \u{200b}z\u{feff}\n**kern\n4c\n", "!!!:\n!!!::\n**kern\n4c\n",
        // notices of tokens, beams, lengths
        "**kern\n4%3c\n4c4\n4c\n", "**kern\n4cccccc\n4ccccccc\n4CCCC\n4CCCCC\n4c\n", "**kern\n8cL\n8d\n8eJ\n8fLJ\n8g\n8aJ\n", "**kern\n8cL\n=\n8dJ\n", "**kern\n4r[\n4r]c\n[4c_]\n", "**kern\n256c\n000c\n00008c\n0008c\n0c\n00c\n255c\n3c\n",
        "**kern\nc\n4cq\ncq\ncQ\n8cP\n8cp\n4c....\n4c.\n4.c 8..e\n", "**kern\t**kern\t**kern\n4c\t4d\te\n4c\t04d\te\n4c\t.\te\n8cL\t8dL\tee-\n4c 4e\t4d\tf\n4c\t4d\tf#x\n", "**kern\n4c'^~;T!\n4c't\u{e9}u\n4C##--n#\n4Xq\n",
        "**kern\n4c##########\n4c-\n4cn\n4c#n\n4c 4e- 4g#\n4r 4c\n4c 4r\n",
        // settings
        "**kern\n*clefG2\n*k[b-e-]\n*g:\n*M3/4\n*met(c)\n*MM96.5\n*I\"Violin\n*I'Vl.\n4c\n*clefF4\n*k[]\n*M2/4\n*met(c|)\n*MM60\n=\n*clefQ\n*k[\n*k[f#b-]\n*M3/0\n*met(o)\n*MMx\n*foo\n*MM7.25\n2d\n==\n",
        "**kern\n*e:\n*k[f#]\n4c\n=\n*G:\n4d\n=\n*k[b-]\n*x\n*a:\n4e\n", "**kern\n*k[g#]\n4c\n=\n*k[f#c#]\n*k[c#f#]\n4d\n=\n*k[F#]\n*k[e-b-]\n*k[b-b-]\n*k[b-e-a-d-g-c-f-]\n4e\n=\n*k[f#g#]\n4f\n*k[g#]\n", "**kern\n*I\"\n*I'\n*I\"\u{e9}t\u{e9} \n4c\n", "**kern\n*MM119.5\n*MM119.4\n4c\n=\n*MM65535\n*MM65535.5\n*MM0.4\n*MM.5\n*MM5.\n*MM.\n4d\n",
        // barlines
        "**kern\n=1|:\n4c\n=:|!|:\n4d\n=||\n4e\n=-\n4f\n==\n4g\n=:!\n=!:\n4a\n", "**kern\n=\n=:|\n4c\n=|:\n=\n4d\n", "**text\t**kern\n=:|\t==\nx\t4c\n=||\t=-\n", "**kern\n*-\n=\n",
    ]
    .iter()
    .map(|t| t.as_bytes().to_vec())
    .collect();
    // paths
    texts.push(kern("4c\n*^\n4c\t4e\n*^\t*^\n4c\t4d\t4e\t4f\n*^\t*\t*\t*\n"));
    texts.push(kern("4c\n*^\n*^\t*^\n4c\t4d\t4e\t4f\n*v\t*v\t*^\t*-\n4c\t4d\t4e\n*v\t*v\t*v\n4c\n*-\n"));
    texts.push(kern("*^\n*^\t*^\n4c\t4d\t4e\t4f\n*^\t*v\t*v\t*\n4c\t4d\t4e\t4f\n*-\t*-\t*^\t*^\n4a\t4b\t4c\t4d\n"));
    texts.push(two("4c\t4e\n*x\t*x\n4c\t4e\n*^\t*x\n4c\t4d\t4e\n*x\t*x\t*x\n4c\t4d\t4e\n*v\t*v\t*\n4c\t4e\n*v\t*v\n4g\n*-\n"));
    texts.push(two("*+\t*\n4c\t.\t4e\n*^\t*^\t*+\n4c\t4d\t.\t.\t4e\t.\n*-\t*\t*\t*\t*-\t*\n4c\tx\t.\t.\n"));
    texts.push(b"**kern\t**text\t**kern\n*\t*^\t*\n4c\tx\ty\t4e\n*\t*v\t*v\t*v\n4c\tz\n*v\t*v\n4d\n".to_vec());
    texts.push(kern("4c\n*v\n4d\n*x\n4e\n*-\t\n"));
    // joins over two parts, over kern and another kind, behind an exchange, in a second run; 7 before 17, 17 before 8 and 9; a lone `*v`, and one outside kern
    texts.push(two("4c\t4e\n*^\t*\n4c\t4d\t4e\n*v\t*v\t*v\n4c\n"));
    texts.push(two("4c\t4e\n*v\t*v\n"));
    texts.push(two("4c\t4e\n*^\t*^\n*\t*x\t*x\t*\n4c\t4d\t4e\t4f\n*\t*\t*v\t*v\n4c\t4d\t4e\n*-\t*-\t*-\n"));
    texts.push(two("4c\t4e\n*^\t*^\n*\t*x\t*x\t*\n4c\t4d\t4e\t4f\n*v\t*\t*v\t*v\n"));
    texts.push(b"**text\t**kern\t**dyn\n.\t4c\t.\n*\t*v\t*v\n".to_vec());
    texts.push(b"**text\t**dyn\t**kern\n.\t.\t4c\n*v\t*v\t*\n.\t4d\n*v\t*v\n".to_vec());
    texts.push(b"**kern\t**text\n*+\t*\n4c\t.\t.\n*\t*v\t*v\n4d\t.\n*-\t*-\n".to_vec());
    texts.push(two("*v\t*v\t\n"));
    texts.push(two("*v\t*v\tx\n"));
    texts.push(b"**kern\t**kern\t**kern\n*v\t*v\tx\n".to_vec());
    texts.push(b"**kern\t**kern\t**kern\n4c\t4c\t4c\n*^\t*\t*\n*^\t*^\t*\t*\n*^\t*\t*\t*\t*v\t*v\n".to_vec());
    texts.push(b"**kern\t**kern\t**kern\n4c\t4c\t4c\n*^\t*\t*\n*v\t*v\t*x\t*x\n4c\t4c\t4c\n*^\t*\t*^\n*v\t*v\t*\t*v\t*v\n4c\t4d\t4e\n*\t*v\t*v\n".to_vec());
    texts.push(wide(256, &format!("*v\t*v\t{}\n", joined("*^", 254))));
    texts.push(wide(256, &format!("{}\t*v\t*v\n", joined("*^", 254))));
    // the sextet's low staff: two lines end and two split in one record
    texts.push(std::fs::read("examples/sextet.krn").unwrap_or_else(|_| two("4c\t4C\n*\t*^\n*\t*^\t*^\n4c\t4C\t4E\t4G\t4B\n*\t*-\t*^\t*^\t*-\n4c\t4C\t4D\t4E\t4F\n")));
    // 256 and 257 columns, rows past 256, a sheet past the room
    texts.push(wide(256, &format!("{}\n{}\n", joined("4c", 256), joined("*-", 256))));
    texts.push(wide(257, &format!("{}\n", joined("4c", 257))));
    texts.push(wide(256, &format!("{}\t*^\n", joined("*", 255))));
    texts.push(wide(200, &format!("{}\t{}\n", joined("*", 143), joined("*^", 57))));
    texts.push(wide(200, &format!("{}\t{}\n{}\n", joined("*", 144), joined("*^", 56), joined("8d", 256))));
    texts.push(wide(256, &format!("{}\n{}\n", joined("4c", 256), joined("=", 256)).repeat(6)));
    // ratios, and what neighbours make of them
    texts.extend(ratios::texts());
    // not UTF-8
    for bad in [&b"\xff"[..], b"\xc0\x80", b"\xe0\x9f\xbf", b"\xed\xa0\x80", b"\xf4\x90\x80\x80", b"\xf0\x9f\x8e"] {
        texts.push([b"**kern\n4c ".as_slice(), bad].concat());
    }
    // more notices than are kept
    texts.push(kern(&format!("{}4c\n", "4x\n".repeat(520))));
    texts
}

/// Texts that are too long for the list, as a beginning and a piece that comes so many times behind it: 100,000 notes, and one record more;
/// notes with marks that are not imported, more than notices are kept.
pub fn long() -> Vec<(Vec<u8>, Vec<u8>, usize)> {
    let (header, row) = (format!("{}\n", joined("**kern", 250)).into_bytes(), format!("{}\n", joined("1c", 250)).into_bytes());
    vec![(header.clone(), row.clone(), 400), (header, row, 401), (b"**kern\n4c\n".to_vec(), b"8ee-L/\\k\n".to_vec(), 1030)]
}

/// A text as the program takes it: behind its length and a LF.
pub fn request(text: &[u8]) -> Vec<u8> {
    [format!("{}\n", text.len()).as_bytes(), text].concat()
}

/// The answer that the program is to give.
pub fn answer(text: &[u8]) -> Vec<u8> {
    match encoder::sheet(text) {
        Ok(sheet) if sheet.len() > ROOM => format!("13 0 {}\n", sheet.len()).into_bytes(),
        Ok(sheet) => [format!("{}\n", sheet.len()).as_bytes(), &sheet, b"\n"].concat(),
        Err((number, line, figure)) => format!("{number} {line} {figure}\n").into_bytes(),
    }
}

fn run(program: &str, input: Vec<u8>) -> Vec<u8> {
    let mut child = Command::new(program).stdin(Stdio::piped()).stdout(Stdio::piped()).spawn().expect("the program starts");
    let mut stdin = child.stdin.take().unwrap();
    let writer = std::thread::spawn(move || stdin.write_all(&input));
    let mut output = Vec::new();
    child.stdout.take().unwrap().read_to_end(&mut output).unwrap();
    writer.join().unwrap().unwrap();
    child.wait().unwrap();
    output
}

/// Texts by a seed through the program, beside the encoder and the source; the first that differs is cut down, line by line, and shown.
pub fn beside(program: &str, seed: u64, texts: usize) -> ExitCode {
    let mut seed = Seed(2 * seed + 1);
    let (mut done, mut accepted, mut mixed, mut ratios, mut different) = (0, 0, 0, 0, 0);
    while done < texts {
        let (mut input, mut expected, mut batch) = (Vec::new(), Vec::new(), Vec::new());
        while done + batch.len() < texts {
            let text = generate::text(&mut seed);
            if input.len() + text.len() > 64_000 {
                break;
            }
            input.extend(request(&text));
            expected.extend(answer(&text));
            batch.push(text);
        }
        done += batch.len();
        let agrees = run(program, input) == expected;
        for text in batch {
            accepted += usize::from(encoder::sheet(&text).is_ok());
            ratios += usize::from(check::has_ratios(&text));
            mixed += usize::from(!check::has_ratios(&text) && check::mixes(&text));
            if !check::agree(&text) || (!agrees && run(program, request(&text)) != answer(&text)) {
                different += 1;
                if different == 1 {
                    let fails = |t: &[u8]| !check::agree(t) || run(program, request(t)) != answer(t);
                    println!("{}", String::from_utf8_lossy(&cut(text, fails)));
                }
            }
        }
    }
    println!("texts: {done} texts, {accepted} accepted, {ratios} with `%` and {mixed} refused with 17, neither held to the source, {different} different");
    if different == 0 { ExitCode::SUCCESS } else { ExitCode::FAILURE }
}

/// The text without each line whose absence leaves the failure.
pub fn cut(mut text: Vec<u8>, mut fails: impl FnMut(&[u8]) -> bool) -> Vec<u8> {
    let mut line = 0;
    loop {
        let lines: Vec<&[u8]> = text.split(|b| *b == b'\n').collect();
        if line >= lines.len() {
            return text;
        }
        let less = [&lines[..line], &lines[line + 1..]].concat().join(&b'\n');
        if fails(&less) {
            text = less;
        } else {
            line += 1;
        }
    }
}

/// The list: the texts, each behind its length and a LF, and the answers.
pub fn list() -> (Vec<u8>, Vec<u8>) {
    let mut texts = picked();
    let mut seed = Seed(20_261);
    while texts.len() < 420 {
        let text = generate::text(&mut seed);
        if text.len() < 120 {
            texts.push(text);
        }
    }
    let (mut input, mut output) = (Vec::new(), Vec::new());
    for text in &texts {
        assert!(check::agree(text), "the encoder and the source differ on {}", String::from_utf8_lossy(text));
        input.extend(request(text));
        output.extend(answer(text));
    }
    for (once, unit, times) in long() {
        let text = [once.clone(), unit.repeat(times)].concat();
        assert!(check::agree(&text), "the encoder and the source differ on a long text");
        input.extend([format!("{} {} {times}\n", once.len(), unit.len()).as_bytes(), &once, &unit].concat());
        output.extend(answer(&text));
    }
    (input, output)
}
