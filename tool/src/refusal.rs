//! A refusal, and what it says in words.
use std::{error, fmt};

/// Why a text is not read, or a hole not filled: the number of the question that it doesn't pass, the line (0 where no record is at fault) and the figure.
///
/// ```
/// let refusal = ruevault::sheet_of(b"**kern\n4c\t4d\n*-\n").unwrap_err();
/// assert_eq!((refusal.number, refusal.line, refusal.figure), (6, 2, 2));
/// assert_eq!(refusal.to_string(), "line 2: the record has 2 tokens, which is not the number of active spines");
/// ```
#[derive(Clone, Copy, Debug, PartialEq, Eq)]
pub struct Refusal {
    /// 1 to 15 or 17, as `kern.h` names them.
    pub number: u32,
    /// Of the text, from 1.
    pub line: u64,
    /// What the number counts or names, 0 where it has nothing to.
    pub figure: u64,
}

impl Refusal {
    /// Why, without the line. Parts count from 1 here.
    pub fn words(&self) -> String {
        let figure = self.figure;
        match self.number {
            1 => format!("the text has {figure} bytes, and 67,108,864 are the most"),
            2 => format!("the text is not UTF-8: its first {figure} bytes are, but not what follows"),
            3 => "a token of the header doesn't begin with `**`".to_string(),
            4 => format!("the header has {figure} tokens, and 256 are the most"),
            5 => "no token of the header is `**kern`".to_string(),
            6 => format!("the record has {figure} {}, which is not the number of active spines", if figure == 1 { "token" } else { "tokens" }),
            7 => "the record begins with `*`, but not all of its tokens do".to_string(),
            8 => format!("a new branch of part {} finds no voice, as the part would have more than four lines", figure + 1),
            9 => format!("the record leaves {figure} spines, and 256 are the most"),
            10 => "the record has a note past the 100,000th, which is the last that can be read".to_string(),
            11 => "the text has no header".to_string(),
            12 => "the text has no note".to_string(),
            13 => format!("the buffer is too short for what is written, which has {figure} bytes"),
            14 => "no value fits the ticks that remain of the hole".to_string(),
            15 => "the voice would have more than 50,000 notes".to_string(),
            17 => format!("the `*v` from token {figure} on join lines of different parts, or of kern and of another kind"),
            number => format!("the text is refused with {number}, figure {figure}"),
        }
    }
}

impl fmt::Display for Refusal {
    fn fmt(&self, f: &mut fmt::Formatter) -> fmt::Result {
        if self.line > 0 {
            write!(f, "line {}: ", self.line)?;
        }
        f.write_str(&self.words())
    }
}

impl error::Error for Refusal {}
