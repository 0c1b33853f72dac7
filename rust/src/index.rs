//! What cells and edges have in common.

use crate::ffi;
use core::fmt;

/// Writes the text of an index.
pub(crate) fn write_text(index: u64, f: &mut fmt::Formatter<'_>) -> fmt::Result {
    let text = ffi::to_text(index).map_err(|_| fmt::Error)?;
    let end = text.iter().position(|byte| *byte == 0).ok_or(fmt::Error)?;
    f.pad(core::str::from_utf8(&text[..end]).map_err(|_| fmt::Error)?)
}

/// Implements the conversions and formats of a type that holds an index of one kind.
macro_rules! index {
    ($type:ident, $is_valid:path, $error:expr) => {
        impl $type {
            /// What the library returned: an index that is none of 0.
            pub(crate) fn known(index: u64) -> Self {
                Self(NonZeroU64::new(index).expect("no index is 0"))
            }

            /// The number.
            pub(crate) fn raw(self) -> u64 {
                self.0.get()
            }
        }

        impl TryFrom<u64> for $type {
            type Error = Refused;

            fn try_from(index: u64) -> Result<Self, Refused> {
                if $is_valid(index) == 1 {
                    Ok(Self::known(index))
                } else {
                    Err(Refused::number($error, index))
                }
            }
        }

        impl From<$type> for u64 {
            fn from(index: $type) -> u64 {
                index.raw()
            }
        }

        impl FromStr for $type {
            type Err = Refused;

            fn from_str(text: &str) -> Result<Self, Refused> {
                let index = ffi::from_text(text).map_err(|error| Refused::text(error, text))?;
                Self::try_from(index)
            }
        }

        impl fmt::Display for $type {
            fn fmt(&self, f: &mut fmt::Formatter<'_>) -> fmt::Result {
                write_text(self.raw(), f)
            }
        }

        impl fmt::Debug for $type {
            fn fmt(&self, f: &mut fmt::Formatter<'_>) -> fmt::Result {
                write!(f, concat!(stringify!($type), "({})"), self)
            }
        }

        impl fmt::LowerHex for $type {
            fn fmt(&self, f: &mut fmt::Formatter<'_>) -> fmt::Result {
                fmt::LowerHex::fmt(&self.raw(), f)
            }
        }

        impl fmt::UpperHex for $type {
            fn fmt(&self, f: &mut fmt::Formatter<'_>) -> fmt::Result {
                fmt::UpperHex::fmt(&self.raw(), f)
            }
        }
    };
}
pub(crate) use index;
