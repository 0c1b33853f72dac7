use crate::{ffi, Cell, Error};
use core::fmt;
use core::str::FromStr;

/// A resolution, 0 to 15: the cells of the next finer one are about a seventh of the size.
#[allow(missing_docs)]
#[derive(Clone, Copy, Debug, PartialEq, Eq, PartialOrd, Ord, Hash)]
#[repr(u8)]
pub enum Resolution {
    Zero,
    One,
    Two,
    Three,
    Four,
    Five,
    Six,
    Seven,
    Eight,
    Nine,
    Ten,
    Eleven,
    Twelve,
    Thirteen,
    Fourteen,
    Fifteen,
}

impl Resolution {
    /// All resolutions, from the coarsest to the finest.
    pub const ALL: [Self; 16] = [
        Self::Zero,
        Self::One,
        Self::Two,
        Self::Three,
        Self::Four,
        Self::Five,
        Self::Six,
        Self::Seven,
        Self::Eight,
        Self::Nine,
        Self::Ten,
        Self::Eleven,
        Self::Twelve,
        Self::Thirteen,
        Self::Fourteen,
        Self::Fifteen,
    ];

    /// How many cells the resolution has: H3's `getNumCells`.
    ///
    /// # Examples
    ///
    /// ```
    /// use h3whole::Resolution;
    ///
    /// assert_eq!(Resolution::Fifteen.cell_count(), 569_707_381_193_162);
    /// ```
    pub fn cell_count(self) -> u64 {
        ffi::cell_count(self.into())
            .expect("a resolution has cells")
            .unsigned_abs()
    }

    /// The next finer resolution; `None` for the finest.
    ///
    /// # Examples
    ///
    /// ```
    /// use h3whole::Resolution;
    ///
    /// assert_eq!(Resolution::Four.succ(), Some(Resolution::Five));
    /// assert_eq!(Resolution::Fifteen.succ(), None);
    /// assert_eq!(Resolution::Zero.pred(), None);
    /// ```
    pub fn succ(self) -> Option<Self> {
        Self::ALL.get(self as usize + 1).copied()
    }

    /// The next coarser resolution; `None` for the coarsest.
    pub fn pred(self) -> Option<Self> {
        Self::ALL[..self as usize].last().copied()
    }

    /// The pentagons of the resolution, ascending: H3's `getPentagons`.
    pub fn pentagons(self) -> [Cell; 12] {
        ffi::pentagons(self.into())
            .expect("a resolution has twelve pentagons")
            .map(Cell::known)
    }
}

impl From<Resolution> for u8 {
    fn from(resolution: Resolution) -> u8 {
        resolution as u8
    }
}

impl From<Resolution> for i32 {
    fn from(resolution: Resolution) -> i32 {
        resolution as i32
    }
}

/// `ResDomain` if the number is not a resolution.
impl TryFrom<i32> for Resolution {
    type Error = Error;

    fn try_from(number: i32) -> Result<Self, Error> {
        usize::try_from(number)
            .ok()
            .and_then(|n| Self::ALL.get(n))
            .copied()
            .ok_or(Error::ResDomain)
    }
}

/// `ResDomain` if the number is not a resolution.
impl TryFrom<u8> for Resolution {
    type Error = Error;

    fn try_from(number: u8) -> Result<Self, Error> {
        Self::try_from(i32::from(number))
    }
}

/// `ResDomain` if the number is not a resolution.
impl TryFrom<u32> for Resolution {
    type Error = Error;

    fn try_from(number: u32) -> Result<Self, Error> {
        Self::try_from(i32::try_from(number).map_err(|_| Error::ResDomain)?)
    }
}

/// `ResDomain` if the number is not a resolution.
impl TryFrom<usize> for Resolution {
    type Error = Error;

    fn try_from(number: usize) -> Result<Self, Error> {
        Self::try_from(i32::try_from(number).map_err(|_| Error::ResDomain)?)
    }
}

/// Parses a decimal number: `Failed` if the text is not one, `ResDomain` if the number is not a
/// resolution.
impl FromStr for Resolution {
    type Err = Error;

    fn from_str(text: &str) -> Result<Self, Error> {
        Self::try_from(text.parse::<i32>().map_err(|_| Error::Failed)?)
    }
}

impl fmt::Display for Resolution {
    fn fmt(&self, f: &mut fmt::Formatter<'_>) -> fmt::Result {
        fmt::Display::fmt(&u8::from(*self), f)
    }
}
