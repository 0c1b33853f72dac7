use core::fmt;

/// Declares the errors by their numbers and H3's names.
macro_rules! errors {
    ($($(#[$doc:meta])* $variant:ident = $number:literal, $name:literal;)*) => {
        /// H3's errors, by its numbers and names.
        #[derive(Clone, Copy, Debug, PartialEq, Eq, PartialOrd, Ord, Hash)]
        #[non_exhaustive]
        #[repr(u8)]
        pub enum Error {
            $($(#[$doc])* $variant = $number,)*
        }

        impl Error {
            /// The error that has this number. 0 is success; a number that is not in H3's table is
            /// `Failed`, which is H3's error for what has none of its own.
            pub(crate) fn from_number(number: u32) -> Option<Self> {
                match number {
                    0 => None,
                    $($number => Some(Self::$variant),)*
                    _ => Some(Self::Failed),
                }
            }

            /// H3's name, as `E_CELL_INVALID`.
            pub fn name(self) -> &'static str {
                match self {
                    $(Self::$variant => $name,)*
                }
            }
        }
    };
}

errors! {
    /// No other error says what it is. A text that is not an index is this error.
    Failed = 1, "E_FAILED";
    /// A number is out of range: no descendant has this position, or no walk this radius.
    Domain = 2, "E_DOMAIN";
    /// A latitude or longitude is out of range. Never returned here.
    LatLngDomain = 3, "E_LATLNG_DOMAIN";
    /// A number is not a resolution, or not one that the function takes.
    ResDomain = 4, "E_RES_DOMAIN";
    /// An index is not a valid cell.
    CellInvalid = 5, "E_CELL_INVALID";
    /// An index is not a valid directed edge.
    DirEdgeInvalid = 6, "E_DIR_EDGE_INVALID";
    /// An index is not a valid undirected edge. Never returned here.
    UndirEdgeInvalid = 7, "E_UNDIR_EDGE_INVALID";
    /// An index is not a valid vertex. Never returned here.
    VertexInvalid = 8, "E_VERTEX_INVALID";
    /// A pentagon is in the way.
    Pentagon = 9, "E_PENTAGON";
    /// Two cells overlap.
    DuplicateInput = 10, "E_DUPLICATE_INPUT";
    /// Two cells are not neighbors.
    NotNeighbors = 11, "E_NOT_NEIGHBORS";
    /// Two resolutions do not fit.
    ResMismatch = 12, "E_RES_MISMATCH";
    /// Out of memory.
    MemoryAlloc = 13, "E_MEMORY_ALLOC";
    /// A slice is too short.
    MemoryBounds = 14, "E_MEMORY_BOUNDS";
    /// An option is invalid. Never returned here.
    OptionInvalid = 15, "E_OPTION_INVALID";
}

impl Error {
    /// H3's number.
    pub fn number(self) -> u32 {
        self as u32
    }
}

impl fmt::Display for Error {
    fn fmt(&self, f: &mut fmt::Formatter<'_>) -> fmt::Result {
        write!(f, "error {}: {}", self.number(), self.name())
    }
}

#[cfg(feature = "std")]
impl std::error::Error for Error {}
