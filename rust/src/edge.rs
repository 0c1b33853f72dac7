use crate::index::{index, write_text};
use crate::{ffi, Cell, Error, Refused};
use core::fmt;
use core::num::NonZeroU64;
use core::str::FromStr;

/// A directed edge: the step from a cell in one direction. It holds the index of one: converting a
/// number that is not a valid edge is an error.
///
/// # Examples
///
/// ```
/// use h3whole::{Cell, Edge, Error};
///
/// let edge: Edge = "115283473fffffff".parse()?;
/// assert_eq!(edge.origin(), Cell::try_from(0x85283473fffffff)?);
/// assert_eq!(edge.origin().edges().next(), Some(edge));
/// assert_eq!("85283473fffffff".parse::<Edge>().unwrap_err(), Error::DirEdgeInvalid);
/// # Ok::<(), Error>(())
/// ```
#[derive(Clone, Copy, PartialEq, Eq, PartialOrd, Ord, Hash)]
#[repr(transparent)]
pub struct Edge(pub(crate) NonZeroU64);

index!(Edge, ffi::is_valid_edge, Error::DirEdgeInvalid);

impl Edge {
    /// The cell that the edge leaves: H3's `getDirectedEdgeOrigin`.
    pub fn origin(self) -> Cell {
        Cell::known(ffi::origin(self.raw()).expect("an edge has an origin"))
    }
}
