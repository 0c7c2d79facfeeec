//! Kinds of scan, and feeds that were stopped.

use crate::Refusal;
use core::fmt;

/// The order in which a scan goes over the bed. A pixel is scanned once the scan has come to its place in it.
///
/// ```
/// use kingletbed::{Account, Bed, Kind, Pixel, Refusal};
/// let mut rows = Bed::fresh(Kind::Rows, 2, [0; 16])?;
/// rows.feed(&[0, 0, 9])?;
/// assert_eq!(rows.lookup(Pixel { column: 2, row: 0 })?.account, Account(9));
/// assert_eq!(rows.lookup(Pixel { column: 0, row: 1 }), Err(Refusal::Unscanned));
///
/// let mut morton = Bed::fresh(Kind::Morton, 2, [0; 16])?;
/// morton.feed(&[0, 0, 9])?;
/// assert_eq!(morton.lookup(Pixel { column: 0, row: 1 })?.account, Account(9));
/// assert_eq!(morton.lookup(Pixel { column: 2, row: 0 }), Err(Refusal::Unscanned));
/// # Ok::<(), kingletbed::Refusal>(())
/// ```
#[derive(Clone, Copy, Debug, PartialEq, Eq, Hash)]
pub enum Kind {
    /// Row after row, each from the west.
    Rows,
    /// By rising Morton number.
    Morton,
}

impl Kind {
    /// The kind's number, as in the C header.
    pub(crate) const fn number(self) -> u32 {
        match self {
            Kind::Rows => 0,
            Kind::Morton => 1,
        }
    }
}

/// A feed that was refused: why, and how many of its accounts were taken. Those stand, and the bed goes on behind them.
///
/// ```
/// use kingletbed::{Bed, Kind, Refusal};
/// let mut bed = Bed::fresh(Kind::Rows, 1, [0; 4])?;
/// let stopped = bed.feed(&[1, 64]).unwrap_err();
/// assert_eq!((stopped.refusal, stopped.taken), (Refusal::AccountTooLarge, 1));
/// assert_eq!(stopped.to_string(), "the account is above 63, after 1 taken");
/// assert_eq!(Refusal::from(stopped), Refusal::AccountTooLarge);
/// assert_eq!(bed.scanned(), 1);
/// # Ok::<(), kingletbed::Refusal>(())
/// ```
#[derive(Clone, Copy, Debug, PartialEq, Eq, Hash)]
pub struct Stopped {
    /// The check that was broken first.
    pub refusal: Refusal,
    /// How many accounts of this feed were taken.
    pub taken: usize,
}

impl fmt::Display for Stopped {
    fn fmt(&self, f: &mut fmt::Formatter) -> fmt::Result {
        write!(f, "{}, after {} taken", self.refusal, self.taken)
    }
}

impl core::error::Error for Stopped {}

impl From<Stopped> for Refusal {
    fn from(stopped: Stopped) -> Refusal {
        stopped.refusal
    }
}
