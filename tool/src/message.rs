//! Messages: `FILE:LINE:COLUMN: error[N]: ..`, which editors follow. Lines and columns count from 1, columns in characters.
use crate::json::Json;
use crate::words;
use std::ffi::OsStr;

pub struct Message {
    pub severity: &'static str,
    /// Of the refusal or the notice; 0 for a warning that has no notice.
    pub number: u32,
    pub line: u64,
    pub column: u64,
    pub text: String,
    /// Whole lines that belong below it: the source with a mark, and what explains it.
    pub below: String,
    pub hints: Vec<String>,
}

impl Message {
    pub fn warning(number: u8, line: u64, column: u64, text: String) -> Self {
        Message { severity: "warning", number: number.into(), line, column, text, below: String::new(), hints: Vec::new() }
    }

    /// As it is printed, with its end of line.
    pub fn printed(&self, file: &str) -> String {
        let Message { severity, number, line, column, text, .. } = self;
        let mut said = format!("{file}:{line}:{column}: {severity}[{number}]: {text}\n{}", self.below);
        self.hints.iter().for_each(|hint| said += &format!("  hint: {hint}\n"));
        said
    }

    pub fn json(&self, out: &mut Json) {
        out.object(|o| {
            o.field("number", |v| v.number(self.number));
            o.field("line", |v| v.number(self.line));
            o.field("column", |v| v.number(self.column));
            o.field("text", |v| v.string(&self.text));
            o.field("hints", |v| v.array(|a| self.hints.iter().for_each(|hint| a.item(|v| v.string(hint)))));
        });
    }
}

/// A file as messages name it.
pub fn name_of(file: &OsStr) -> String {
    words::plain(file.as_encoded_bytes())
}

/// `1 token`, `3 tokens`, `1,024 notices`.
pub fn counted(count: usize, one: &str) -> String {
    if count == 1 { format!("1 {one}") } else { format!("{} {one}s", grouped(count as u64)) }
}

/// `67,108,864`.
pub fn grouped(number: u64) -> String {
    let digits = number.to_string();
    let mut said = String::new();
    for (i, digit) in digits.chars().enumerate() {
        if i > 0 && (digits.len() - i) % 3 == 0 {
            said.push(',');
        }
        said.push(digit);
    }
    said
}
