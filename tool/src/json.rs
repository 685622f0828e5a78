//! JSON, written as it goes (docs/JSON.md).
use std::io::{self, Write};

/// A value to be written. What goes wrong is kept, and told by `end`.
pub struct Json<'w> {
    out: &'w mut dyn Write,
    first: bool,
    failed: Option<io::Error>,
}

impl<'w> Json<'w> {
    pub fn new(out: &'w mut dyn Write) -> Self {
        Json { out, first: true, failed: None }
    }

    /// Ends the line.
    pub fn end(mut self) -> io::Result<()> {
        self.put("\n");
        self.failed.map_or(Ok(()), Err)
    }

    pub fn failed(&self) -> bool {
        self.failed.is_some()
    }

    fn put(&mut self, bytes: &str) {
        if self.failed.is_none() {
            self.failed = self.out.write_all(bytes.as_bytes()).err();
        }
    }

    fn nested(&mut self, open: &str, close: &str, fill: impl FnOnce(&mut Self)) {
        self.put(open);
        self.first = true;
        fill(self);
        self.put(close);
        self.first = false;
    }

    fn next(&mut self) {
        if !self.first {
            self.put(",");
        }
        self.first = false;
    }

    pub fn object(&mut self, fields: impl FnOnce(&mut Self)) {
        self.nested("{", "}", fields);
    }

    pub fn array(&mut self, items: impl FnOnce(&mut Self)) {
        self.nested("[", "]", items);
    }

    /// A field of the open object.
    pub fn field(&mut self, name: &str, value: impl FnOnce(&mut Self)) {
        self.next();
        self.string(name);
        self.put(":");
        value(self);
    }

    /// An item of the open array.
    pub fn item(&mut self, value: impl FnOnce(&mut Self)) {
        self.next();
        value(self);
    }

    pub fn number(&mut self, number: impl Into<i128>) {
        self.put(&number.into().to_string());
    }

    pub fn boolean(&mut self, yes: bool) {
        self.put(if yes { "true" } else { "false" });
    }

    pub fn null(&mut self) {
        self.put("null");
    }

    pub fn string(&mut self, text: &str) {
        let mut said = String::from('"');
        for c in text.chars() {
            match c {
                '"' => said += "\\\"",
                '\\' => said += "\\\\",
                '\n' => said += "\\n",
                '\t' => said += "\\t",
                c if c.is_control() => said += &format!("\\u{:04x}", c as u32),
                c => said.push(c),
            }
        }
        said.push('"');
        self.put(&said);
    }

    /// A piece of the text; bytes that are not UTF-8 become U+FFFD.
    pub fn text(&mut self, bytes: &[u8]) {
        self.string(&String::from_utf8_lossy(bytes));
    }

    /// A string, or null for an empty one.
    pub fn some_text(&mut self, bytes: &[u8]) {
        if bytes.is_empty() { self.null() } else { self.text(bytes) }
    }
}
