use crate::Error;
use alloc::boxed::Box;
use core::fmt;

/// A text or a number that is not an index of the kind it is converted to: the error, and what was
/// refused.
///
/// It compares with an [`Error`], and `?` makes one of it.
///
/// # Examples
///
/// ```
/// use h3whole::{Cell, Error};
///
/// let refused = "xyz".parse::<Cell>().unwrap_err();
/// assert_eq!(refused, Error::Failed);
/// assert_eq!(refused.to_string(), "error 1: E_FAILED: \"xyz\"");
/// let refused = Cell::try_from(0x81087ffffffffff).unwrap_err();
/// assert_eq!(refused.to_string(), "error 5: E_CELL_INVALID: 81087ffffffffff");
/// ```
#[derive(Clone, Debug, PartialEq, Eq, Hash)]
pub struct Refused {
    error: Error,
    given: Given,
}

#[derive(Clone, Debug, PartialEq, Eq, Hash)]
enum Given {
    Number(u64),
    /// At most [`SHOWN`] characters.
    Text(Box<str>),
}

/// How many characters of a text are kept.
const SHOWN: usize = 40;

impl Refused {
    pub(crate) fn number(error: Error, number: u64) -> Self {
        Self {
            error,
            given: Given::Number(number),
        }
    }

    pub(crate) fn text(error: Error, text: &str) -> Self {
        let end = text
            .char_indices()
            .nth(SHOWN)
            .map_or(text.len(), |(at, _)| at);
        Self {
            error,
            given: Given::Text(text[..end].into()),
        }
    }

    /// The error: `Failed` if a text is not an index, else `CellInvalid` or `DirEdgeInvalid`.
    pub fn error(&self) -> Error {
        self.error
    }
}

/// H3's number and name, and the text, in quotes, or the number by its hexadecimal digits. A text
/// of more than 40 characters is cut.
impl fmt::Display for Refused {
    fn fmt(&self, f: &mut fmt::Formatter<'_>) -> fmt::Result {
        match &self.given {
            Given::Number(number) => write!(f, "{}: {number:x}", self.error),
            Given::Text(text) => write!(f, "{}: {text:?}", self.error),
        }
    }
}

#[cfg(feature = "std")]
impl std::error::Error for Refused {}

impl From<Refused> for Error {
    fn from(refused: Refused) -> Error {
        refused.error
    }
}

impl PartialEq<Error> for Refused {
    fn eq(&self, error: &Error) -> bool {
        self.error == *error
    }
}
