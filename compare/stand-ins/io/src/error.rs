//! The errors that the kern reader gives.
#[derive(Debug, Clone, PartialEq)]
pub enum Error {
    Empty,
    TooLarge(usize),
    Xml(String),
}
