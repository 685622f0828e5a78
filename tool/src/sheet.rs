//! A text with its sheet.
use crate::records::{self, Bar, End, Head, Note, Notice, Part, Record, Records, Span};
use crate::refusal::Refusal;
use std::borrow::Cow;

/// A text with its sheet: what a span of the sheet names, the text gives.
///
/// ```
/// use ruevault::Sheet;
/// let sheet = Sheet::read(b"!!!OTL: Air\n**kern\n*I\"Viola\n4c 4e\n8r\n*-\n")?;
/// assert_eq!(sheet.title(), Some("Air"));
/// assert_eq!(sheet.parts().map(|p| sheet.part_name(&p)).collect::<Vec<_>>(), ["Viola"]);
/// assert_eq!(sheet.notes().map(|n| n.to_string()).collect::<Vec<_>>(), ["quarter C4 E4", "eighth rest"]);
/// assert_eq!(sheet.bars().next().and_then(|b| b.key()).map(|k| k.to_string()).as_deref(), Some("C major"));
/// # Ok::<(), ruevault::Refusal>(())
/// ```
#[derive(Clone, Debug, PartialEq, Eq)]
pub struct Sheet<'t> {
    text: &'t [u8],
    bytes: Cow<'t, [u8]>,
}

impl<'t> Sheet<'t> {
    /// Reads a text.
    pub fn read(text: &'t [u8]) -> Result<Sheet<'t>, Refusal> {
        crate::sheet_of(text).map(|bytes| Sheet { text, bytes: bytes.into() })
    }

    /// Ties a text to its sheet; none where the bytes are no whole sheet. Whether the sheet is that of the text isn't asked.
    pub fn tie(text: &'t [u8], sheet: &'t [u8]) -> Option<Sheet<'t>> {
        records::is_whole(sheet).then_some(Sheet { text, bytes: sheet.into() })
    }

    /// The text.
    pub fn text(&self) -> &'t [u8] {
        self.text
    }

    /// The sheet's bytes.
    pub fn bytes(&self) -> &[u8] {
        &self.bytes
    }

    /// The sheet's bytes, without the text.
    pub fn into_bytes(self) -> Vec<u8> {
        self.bytes.into_owned()
    }

    /// Its head.
    pub fn head(&self) -> Head {
        records::head(&self.bytes).expect("a whole sheet has a head")
    }

    /// All records in their order.
    pub fn records(&self) -> Records<'_> {
        records::walk(&self.bytes)
    }

    /// The notes, in the order of the text.
    pub fn notes(&self) -> impl Iterator<Item = Note<'_>> {
        self.records().filter_map(|r| if let Record::Note(note) = r { Some(note) } else { None })
    }

    /// The bars: of each closing one for each part.
    pub fn bars(&self) -> impl Iterator<Item = Bar> {
        self.records().filter_map(|r| if let Record::Bar(bar) = r { Some(bar) } else { None })
    }

    /// The parts, from the highest.
    pub fn parts(&self) -> impl Iterator<Item = Part> {
        self.records().filter_map(|r| if let Record::Part(part) = r { Some(part) } else { None })
    }

    /// The notices, in the order of the text.
    pub fn notices(&self) -> impl Iterator<Item = Notice<'_>> {
        self.records().filter_map(|r| if let Record::Notice(notice) = r { Some(notice) } else { None })
    }

    /// What holds of the whole text; none where a sheet that was tied has no such record.
    pub fn end(&self) -> Option<End> {
        self.records().find_map(|r| if let Record::End(end) = r { Some(end) } else { None })
    }

    /// The name of a part, `Spine 1` and so on where the text gives none.
    pub fn part_name(&self, part: &Part) -> String {
        crate::part_name(self.text, part.name_given, part.name.at, part.name.len, part.part)
    }

    /// A piece of the text; none where it is empty.
    pub fn piece(&self, span: Span) -> Option<&'t str> {
        std::str::from_utf8(span.of(self.text)).ok().filter(|piece| !piece.is_empty())
    }

    /// The text's title.
    pub fn title(&self) -> Option<&'t str> {
        self.end().and_then(|end| self.piece(end.title))
    }

    /// The text's composer.
    pub fn composer(&self) -> Option<&'t str> {
        self.end().and_then(|end| self.piece(end.composer))
    }

    /// The text's lyricist.
    pub fn lyricist(&self) -> Option<&'t str> {
        self.end().and_then(|end| self.piece(end.lyricist))
    }

    /// What a notice preserves.
    pub fn preserved<'a>(&'a self, notice: &Notice<'a>) -> &'a [u8] {
        notice.preserved(self.text)
    }
}
