//! serde for the types of the crate `h3whole`, of which it is apart: cargo asks a registry for an optional dependency
//! too, and `h3whole` is built without any.
//!
//! A [`Cell`] and an [`Edge`] are their text in formats for people, as JSON, and their number, a `u64`, in others. A
//! [`Resolution`] is its number, and a [`Region`] and [`Zones`] are the list of their cells, ascending. What is read
//! is judged: a text or a number that is not an index of its kind is an error, and so is a list with cells that overlap in
//! place of zones.
//!
//! `#[serde(with = "h3whole_serde")]` writes and reads a field of such a type, an `Option` of it or a `Vec`. In any
//! other place, as the key of a map, it stands in a [`Serde`].
//!
//! ```
//! use h3whole::{Cell, Region};
//! use h3whole_serde::Serde;
//! use serde::{Deserialize, Serialize};
//! use std::collections::BTreeMap;
//!
//! #[derive(Serialize, Deserialize)]
//! struct Place {
//!     name: String,
//!     #[serde(with = "h3whole_serde")]
//!     cell: Cell,
//!     #[serde(with = "h3whole_serde")]
//!     around: Region,
//!     counts: BTreeMap<Serde<Cell>, u32>,
//! }
//!
//! let text = r#"{"name":"here","cell":"85283473fffffff","around":[],"counts":{"8428347ffffffff":2}}"#;
//! let place: Place = serde_json::from_str(text)?;
//! assert_eq!(place.cell.resolution(), h3whole::Resolution::Five);
//! assert_eq!(serde_json::to_string(&place)?, text);
//! let refused = serde_json::from_str::<Serde<Cell>>(r#""81087ffffffffff""#).unwrap_err();
//! assert!(refused.to_string().starts_with("error 5: E_CELL_INVALID: 81087ffffffffff"));
//! # Ok::<(), serde_json::Error>(())
//! ```
#![no_std]
#![deny(missing_docs, unsafe_code)]

extern crate alloc;

use alloc::vec::Vec;
use core::fmt;
use core::marker::PhantomData;
use core::str::FromStr;
use h3whole::{Cell, Edge, Refused, Region, Resolution, Zones};
use serde::de::{Deserialize, Deserializer, Error as _, SeqAccess, Visitor};
use serde::ser::{Serialize, Serializer};

/// A type of `h3whole`, or an `Option` or a `Vec` of one, which serde writes and reads.
pub trait Form: Sized {
    /// Writes the value.
    fn write<S: Serializer>(&self, serializer: S) -> Result<S::Ok, S::Error>;

    /// Reads a value, and judges it.
    fn read<'de, D: Deserializer<'de>>(deserializer: D) -> Result<Self, D::Error>;
}

/// Writes a field: for `#[serde(with = "h3whole_serde")]`.
pub fn serialize<T: Form, S: Serializer>(value: &T, serializer: S) -> Result<S::Ok, S::Error> {
    value.write(serializer)
}

/// Reads a field: for `#[serde(with = "h3whole_serde")]`.
pub fn deserialize<'de, T: Form, D: Deserializer<'de>>(deserializer: D) -> Result<T, D::Error> {
    T::read(deserializer)
}

/// A value that serde writes and reads, wherever it stands.
#[derive(Clone, Copy, Debug, Default, PartialEq, Eq, PartialOrd, Ord, Hash)]
pub struct Serde<T>(pub T);

impl<T: Form> Serialize for Serde<T> {
    fn serialize<S: Serializer>(&self, serializer: S) -> Result<S::Ok, S::Error> {
        self.0.write(serializer)
    }
}

impl<'de, T: Form> Deserialize<'de> for Serde<T> {
    fn deserialize<D: Deserializer<'de>>(deserializer: D) -> Result<Self, D::Error> {
        T::read(deserializer).map(Self)
    }
}

/// A borrowed value that serde writes.
struct Written<'a, T>(&'a T);

impl<T: Form> Serialize for Written<'_, T> {
    fn serialize<S: Serializer>(&self, serializer: S) -> Result<S::Ok, S::Error> {
        self.0.write(serializer)
    }
}

/// Reads the text of an index.
struct Text<T>(PhantomData<T>);

impl<T: FromStr<Err = Refused>> Visitor<'_> for Text<T> {
    type Value = T;

    fn expecting(&self, f: &mut fmt::Formatter<'_>) -> fmt::Result {
        f.write_str("the text of an index")
    }

    fn visit_str<E: serde::de::Error>(self, text: &str) -> Result<T, E> {
        text.parse().map_err(E::custom)
    }
}

/// Reads the number of an index or a resolution.
struct Number<T>(PhantomData<T>);

impl<T: TryFrom<u64>> Visitor<'_> for Number<T>
where
    T::Error: fmt::Display,
{
    type Value = T;

    fn expecting(&self, f: &mut fmt::Formatter<'_>) -> fmt::Result {
        f.write_str("a number")
    }

    fn visit_u64<E: serde::de::Error>(self, number: u64) -> Result<T, E> {
        T::try_from(number).map_err(E::custom)
    }
}

macro_rules! index {
    ($type:ident) => {
        impl Form for $type {
            fn write<S: Serializer>(&self, serializer: S) -> Result<S::Ok, S::Error> {
                if serializer.is_human_readable() {
                    serializer.collect_str(self)
                } else {
                    serializer.serialize_u64((*self).into())
                }
            }

            fn read<'de, D: Deserializer<'de>>(deserializer: D) -> Result<Self, D::Error> {
                if deserializer.is_human_readable() {
                    deserializer.deserialize_str(Text(PhantomData))
                } else {
                    deserializer.deserialize_u64(Number(PhantomData))
                }
            }
        }
    };
}

index!(Cell);
index!(Edge);

/// A resolution of a number, which may be too large for one.
struct Level(Resolution);

impl TryFrom<u64> for Level {
    type Error = h3whole::Error;

    fn try_from(number: u64) -> Result<Self, h3whole::Error> {
        let number = u8::try_from(number).map_err(|_| h3whole::Error::ResDomain)?;
        Resolution::try_from(number).map(Self)
    }
}

impl Form for Resolution {
    fn write<S: Serializer>(&self, serializer: S) -> Result<S::Ok, S::Error> {
        serializer.serialize_u8((*self).into())
    }

    fn read<'de, D: Deserializer<'de>>(deserializer: D) -> Result<Self, D::Error> {
        let level: Level = deserializer.deserialize_u8(Number(PhantomData))?;
        Ok(level.0)
    }
}

impl<T: Form> Form for Option<T> {
    fn write<S: Serializer>(&self, serializer: S) -> Result<S::Ok, S::Error> {
        self.as_ref().map(Written).serialize(serializer)
    }

    fn read<'de, D: Deserializer<'de>>(deserializer: D) -> Result<Self, D::Error> {
        let found = Option::<Serde<T>>::deserialize(deserializer)?;
        Ok(found.map(|found| found.0))
    }
}

struct List<T>(PhantomData<T>);

impl<'de, T: Form> Visitor<'de> for List<T> {
    type Value = Vec<T>;

    fn expecting(&self, f: &mut fmt::Formatter<'_>) -> fmt::Result {
        f.write_str("a list")
    }

    fn visit_seq<A: SeqAccess<'de>>(self, mut items: A) -> Result<Vec<T>, A::Error> {
        let mut found = Vec::new();
        while let Some(Serde(item)) = items.next_element()? {
            found.push(item);
        }
        Ok(found)
    }
}

impl<T: Form> Form for Vec<T> {
    fn write<S: Serializer>(&self, serializer: S) -> Result<S::Ok, S::Error> {
        serializer.collect_seq(self.iter().map(Written))
    }

    fn read<'de, D: Deserializer<'de>>(deserializer: D) -> Result<Self, D::Error> {
        deserializer.deserialize_seq(List(PhantomData))
    }
}

impl Form for Region {
    fn write<S: Serializer>(&self, serializer: S) -> Result<S::Ok, S::Error> {
        serializer.collect_seq(self.as_slice().iter().map(Written))
    }

    fn read<'de, D: Deserializer<'de>>(deserializer: D) -> Result<Self, D::Error> {
        Region::of(&Vec::read(deserializer)?).map_err(D::Error::custom)
    }
}

impl Form for Zones {
    fn write<S: Serializer>(&self, serializer: S) -> Result<S::Ok, S::Error> {
        let mut cells: Vec<Cell> = self.iter().collect();
        cells.sort_unstable();
        cells.write(serializer)
    }

    fn read<'de, D: Deserializer<'de>>(deserializer: D) -> Result<Self, D::Error> {
        Zones::new(&Vec::read(deserializer)?).map_err(D::Error::custom)
    }
}
