//! Our reader beside the published one.
#[cfg(library)]
mod bench;
#[cfg(library)]
mod causes;
mod check;
mod encoder;
/// The published module of gaps, which names an error of its own crate.
#[path = "../target/acorde/gap.rs"]
mod gap;
mod gaps;
#[cfg_attr(not(library), allow(dead_code))]
mod generate;
mod leaves;
#[cfg(library)]
mod library;
mod ratios;
#[cfg(library)]
mod reader;
mod rows;
mod source;
mod texts;
mod tokens;

/// The error of the published module of gaps.
pub enum Error {
    Xml(String),
}

use leaves::Case;
use std::io::{Read, Write};
use std::process::{Command, ExitCode, Stdio};

/// The program's answers to requests of at most 65,000 bytes together.
fn ask(program: &str, requests: &[&Case]) -> Vec<Vec<u8>> {
    let mut child = Command::new(program).stdin(Stdio::piped()).stdout(Stdio::piped()).spawn().expect("the program starts");
    let mut stdin = child.stdin.take().unwrap();
    let input: Vec<u8> = requests.iter().flat_map(|c| [c.request.as_slice(), b"\n"].concat()).collect();
    let writer = std::thread::spawn(move || stdin.write_all(&input));
    let mut output = Vec::new();
    child.stdout.take().unwrap().read_to_end(&mut output).unwrap();
    writer.join().unwrap().unwrap();
    child.wait().unwrap();
    output.split(|b| *b == b'\n').map(<[u8]>::to_vec).collect()
}

fn shown(bytes: &[u8]) -> String {
    String::from_utf8_lossy(bytes).escape_debug().to_string()
}

/// The cases of each kind of request, with a name.
fn cases_of(kind: &str) -> Vec<(&'static str, Vec<Case>)> {
    match kind {
        "rows" => vec![("path records", rows::all())],
        "tokens" => vec![("note tokens", tokens::all(5))],
        "longer-tokens" => vec![("longer note tokens", tokens::longer())],
        _ => leaves::all(),
    }
}

/// Asks the program every case, and says how many answers differ.
fn compare(kind: &str, program: &str) -> ExitCode {
    let mut different = 0;
    for (name, cases) in cases_of(kind) {
        let mut wrong = 0;
        let mut rest: Vec<&Case> = cases.iter().collect();
        while !rest.is_empty() {
            let mut size = 0;
            let many = rest.iter().take_while(|c| { size += c.request.len() + 1; size <= 65_000 }).count();
            let chunk: Vec<&Case> = rest.drain(..many).collect();
            let answers = ask(program, &chunk);
            for (index, case) in chunk.iter().enumerate() {
                let answer = answers.get(index).map_or(&b"(none)"[..], |a| a);
                if answer != case.answer {
                    wrong += 1;
                    if wrong <= 5 {
                        println!("  {} : ours {}, due {}", shown(&case.request), shown(answer), shown(&case.answer));
                    }
                }
            }
        }
        let ratios = cases.iter().filter(|c| kind.ends_with("tokens") && c.request.contains(&b'%')).count();
        let held = if ratios > 0 { format!(", {ratios} of them with a `%` and held to the encoder alone") } else { String::new() };
        println!("{name}: {} cases{held}, {wrong} different", cases.len());
        different += wrong;
    }
    if different == 0 { ExitCode::SUCCESS } else { ExitCode::FAILURE }
}

/// Requests that the replayed list has besides those that are spread over all: document 01's lines that are not marked P, and both edges of rules.
const PICKED: [&str; 73] = [
    "I*M4/+4", "I*M0/4", "I*M255/128", "I*M256/4", "I*M4/3", "I*M004/08", "I*M4", "I*M+4/4", "I*MM119.5", "I*MM119.49", "I*MM65534.5", "I*MM65535.1", "I*MM0.9",
    "I*clefG2", "I*clefGv2", "I*clefC4", "I*clefX", "J*clefG2", "I*k[]", "I*k[f#f#]", "I*k[b-b-b-]", "I*k[##]", "I*k[", "I*met(c)", "I*met(c|)", "I*met(o)",
    "I*k[f#]", "I*k[f#c#g#d#a#e#b#]", "I*k[b-]", "I*k[b-e-a-d-g-c-f-]", "I*k[f#c#g#d#a#e#b#b]", "I*k[g#]", "I*k[F#]", "I*k[f#g#]", "I*k[c#f#]", "I*k[e-b-]", "J*k[g#]",
    "I*G:", "I*e:", "I*abcd:", "I*I\"a", "I*I'a", "I*", "D255", "D256", "D0", "D00", "D000", "D12", "D0008", "D00008",
    "D3%2", "D4%2", "D1%4", "D1%5", "D2%3", "D255%1", "D255%2", "D255%254", "D64%255", "D03%003", "D0003%0003", "D00003%3", "D0%3", "D3%0", "D256%3",
    "H0 0 60000 4096", "H480 480 49999 4096", "H480 480 50000 4096", "H15360 480 49999 4096", "H1 0 50000 4096", "H320 480 0 4096", "H96 480 0 4096",
];

/// A sample of the cases: the requests into one file, the answers into another.
fn sample(kind: &str, requests: &str, answers: &str) -> ExitCode {
    let (mut input, mut output) = (Vec::new(), Vec::new());
    let many = if kind == "leaves" { 90 } else { 600 };
    let mut met = 0;
    let all = cases_of(kind);
    let mut asked = std::collections::HashSet::new();
    for (_, cases) in &all {
        // every case where there are few, else so many spread over all
        let step = cases.len().div_ceil(many);
        for (index, case) in cases.iter().enumerate() {
            let picked = PICKED.iter().any(|p| p.as_bytes() == case.request) || ratios::is_row(&case.request);
            met += usize::from(picked);
            if (index % step == 0 || picked) && case.request.len() < 200 && asked.insert(&case.request) {
                input.extend_from_slice(&case.request);
                input.push(b'\n');
                output.extend_from_slice(&case.answer);
                output.push(b'\n');
            }
        }
    }
    assert!(kind != "leaves" || met == PICKED.len(), "{met} of the {} picked requests are among all", PICKED.len());
    std::fs::write(requests, input).unwrap();
    std::fs::write(answers, output).unwrap();
    ExitCode::SUCCESS
}

/// Writes the encoder's sheet of a text, or number, line and figure of its refusal.
fn sheet(text: &str) -> ExitCode {
    match encoder::sheet(&std::fs::read(text).expect("the text is read")) {
        Ok(sheet) => std::io::stdout().write_all(&sheet).unwrap(),
        Err((number, line, figure)) => println!("{number} {line} {figure}"),
    }
    ExitCode::SUCCESS
}

/// Texts to try code on that isn't proved yet: each row of request E3's table in a text of its own, and texts by a seed, as many full of ratios as of all kinds.
fn try_texts(seed: u64, many: usize) -> Vec<(String, Vec<u8>)> {
    let mut seed = generate::Seed(2 * seed + 1);
    let ratios = generate::KINDS.iter().position(|kind| *kind == "ratios").unwrap();
    let drawn = (0..many).map(|i| {
        let kind = if i % 2 == 0 { ratios } else { (i / 2) % generate::KINDS.len() };
        (format!("{i:06}-{}", generate::KINDS[kind]), generate::kind(&mut seed, kind))
    });
    ratios::apart().into_iter().chain(drawn).collect()
}

/// Cases of the program `kern` for `rt try`, which runs code that isn't proved yet: texts, each beside the encoder's sheet, or number, line and figure.
fn try_cases(folder: &str, seed: u64, many: usize) -> ExitCode {
    for (name, text) in try_texts(seed, many) {
        let answer = match encoder::sheet(&text) {
            _ if text.len() > 32_768 => b"long\n".to_vec(),
            Ok(sheet) if sheet.len() > 32_768 => format!("13 0 {}\n", sheet.len()).into_bytes(),
            Ok(sheet) => sheet,
            Err((number, line, figure)) => format!("{number} {line} {figure}\n").into_bytes(),
        };
        std::fs::write(format!("{folder}/{name}"), text).unwrap();
        std::fs::write(format!("{folder}/{name}.stdout"), answer).unwrap();
    }
    ExitCode::SUCCESS
}

/// The most bytes of the requests in a file: the programs read 65,536 bytes and no more.
const ASKED: usize = 65_000;

/// The most bytes of the answers beside them, so that `rt try` takes them.
const ANSWERED: usize = 900_000;

/// The same texts as lists of the program `texts`.
fn try_lists(folder: &str, seed: u64, many: usize) -> ExitCode {
    let mut lists: Vec<(Vec<u8>, Vec<u8>)> = vec![Default::default()];
    for (_, text) in try_texts(seed, many) {
        let (request, answer) = (texts::request(&text), texts::answer(&text));
        if lists.last().is_some_and(|list| list.0.len() + request.len() > ASKED || list.1.len() + answer.len() > ANSWERED) {
            lists.push(Default::default());
        }
        let list = lists.last_mut().unwrap();
        list.0.extend(request);
        list.1.extend(answer);
    }
    for (file, (list, answers)) in lists.iter().enumerate() {
        std::fs::write(format!("{folder}/{file:04}"), list).unwrap();
        std::fs::write(format!("{folder}/{file:04}.stdout"), answers).unwrap();
    }
    ExitCode::SUCCESS
}

/// Every request of a kind in files of such a size that `rt try` takes the answers, each beside the answers.
fn try_requests(kind: &str, folder: &str) -> ExitCode {
    let cases: Vec<Case> = cases_of(kind).into_iter().flat_map(|(_, cases)| cases).collect();
    let mut rest = &cases[..];
    for file in 0.. {
        let (mut asked, mut answered) = (0, 0);
        let fits = |c: &&Case| {
            asked += c.request.len() + 1;
            answered += c.answer.len() + 1;
            asked <= ASKED && answered <= ANSWERED
        };
        let many = rest.iter().take_while(fits).count();
        let (here, behind) = rest.split_at(many);
        let lines = |of: &dyn Fn(&Case) -> &[u8]| -> Vec<u8> { here.iter().flat_map(|c| [of(c), b"\n"].concat()).collect() };
        std::fs::write(format!("{folder}/{file:04}"), lines(&|c| &c.request)).unwrap();
        std::fs::write(format!("{folder}/{file:04}.stdout"), lines(&|c| &c.answer)).unwrap();
        rest = behind;
        if rest.is_empty() {
            break;
        }
    }
    println!("{} requests", cases.len());
    ExitCode::SUCCESS
}

/// The commands over the proved library.
#[cfg(library)]
fn library(words: &[&str]) -> ExitCode {
    match *words {
        ["reader", "short", lines] => reader::short(lines.parse().expect("a number of lines")),
        ["reader", "edges"] => reader::edges(),
        ["reader", seed, texts] => reader::by_seed(seed.parse().expect("a seed"), texts.parse().expect("a number of texts")),
        ["causes", seed, texts] => causes::by_seed(seed.parse().expect("a seed"), texts.parse().expect("a number of texts")),
        ["bench", "gaps"] => gaps::bench(),
        ["gaps", seed, holes] => gaps::beside(seed.parse().expect("a seed"), holes.parse().expect("a number of holes")),
        ["bench"] => bench::all(""),
        ["bench", kinds] => bench::all(kinds),
        _ => usage(),
    }
}

#[cfg(not(library))]
fn library(_: &[&str]) -> ExitCode {
    eprintln!("this is built without the proved library: `rt lib` in crates/kern_ffi makes it in its out folder (or name its folder in RUEVAULT_LIB), then build again");
    ExitCode::from(2)
}

fn usage() -> ExitCode {
    eprintln!("usage: compare sheet TEXT | compare cases [texts] FOLDER SEED TEXTS | compare cases leaves|rows|tokens|longer-tokens FOLDER | compare encoder SEED TEXTS | compare run leaves|rows|tokens|longer-tokens PROGRAM | compare run texts PROGRAM SEED TEXTS | compare sample leaves|rows|tokens|texts REQUESTS ANSWERS | compare reader SEED TEXTS | compare reader short LINES | compare reader edges | compare causes SEED TEXTS | compare gaps SEED HOLES | compare bench [KIND]");
    ExitCode::from(2)
}

fn main() -> ExitCode {
    let words: Vec<String> = std::env::args().skip(1).collect();
    match words.iter().map(String::as_str).collect::<Vec<_>>()[..] {
        ["run", kind @ ("leaves" | "rows" | "tokens" | "longer-tokens"), program] => compare(kind, program),
        ["sample", kind @ ("leaves" | "rows" | "tokens"), requests, answers] => sample(kind, requests, answers),
        ["run", "texts", program, seed, texts] => texts::beside(program, seed.parse().expect("a seed"), texts.parse().expect("a number of texts")),
        ["sample", "texts", requests, answers] => {
            let (input, output) = texts::list();
            std::fs::write(requests, input).unwrap();
            std::fs::write(answers, output).unwrap();
            ExitCode::SUCCESS
        }
        ["encoder", seed, texts] => check::encoder(seed.parse().expect("a seed"), texts.parse().expect("a number of texts")),
        ["sheet", text] => sheet(text),
        ["cases", kind @ ("leaves" | "rows" | "tokens" | "longer-tokens"), folder] => try_requests(kind, folder),
        ["cases", "texts", folder, seed, texts] => try_lists(folder, seed.parse().expect("a seed"), texts.parse().expect("a number of texts")),
        ["cases", folder, seed, texts] => try_cases(folder, seed.parse().expect("a seed"), texts.parse().expect("a number of texts")),
        ["reader" | "causes" | "gaps" | "bench", ..] => library(&words.iter().map(String::as_str).collect::<Vec<_>>()),
        _ => usage(),
    }
}
