//! The whole-number functions of H3 version 4: cells, their hierarchy, compaction, regions and
//! directed edges.
//!
//! Every result comes from the library libh3whole, which is compiled from proved code. This crate
//! makes its functions safe to call, and has no logic of H3's; it is tested, not proved.
//!
//! Without the default feature `std` the crate takes `core` and `alloc` alone, and its errors do not
//! implement `std::error::Error`. The archive that it links takes the C library.
//!
//! # Examples
//!
//! ```
//! use h3whole::{compact, Cell, Resolution};
//!
//! let cell: Cell = "85283473fffffff".parse()?;
//! let parent = cell.parent(Resolution::Four)?;
//! let children = parent.children_vec(Resolution::Six)?;
//! assert_eq!(children.len(), 49);
//! assert_eq!(compact(&children)?, [parent]);
//! # Ok::<(), h3whole::Error>(())
//! ```
#![no_std]
#![deny(missing_docs, unsafe_code, unsafe_op_in_unsafe_fn)]

extern crate alloc;
#[cfg(feature = "std")]
extern crate std;

mod cell;
pub mod columns;
mod edge;
mod error;
#[allow(unsafe_code)]
mod ffi;
mod index;
mod refused;
mod regions;
mod resolution;
mod sets;
mod table;

pub use cell::{Cell, Children};
pub use edge::Edge;
pub use error::Error;
pub use refused::Refused;
pub use regions::{Counts, Region, Zones};
pub use resolution::Resolution;
pub use sets::{compact, find_overlap, uncompact};
pub use table::{Table, TableError};
