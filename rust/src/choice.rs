//! Which pixels a third bed has of the first.

/// Which of the first bed's pixels [`Bed::combine`](crate::Bed::combine) keeps; the others that it has scanned are
/// nobody's on the third.
///
/// ```
/// use kingletbed::{Account, Bed, Choice, Pixel};
/// let bed = Bed::from_slots(1, 1, [71])?; // all account 7's
/// let zones = Bed::from_slots(1, 1, [3075])?; // the pixel SE is account 3's
/// let southeast = Pixel { column: 1, row: 1 };
/// let inside = Bed::combine(Choice::Inside, &bed, &zones, [0; 4])?;
/// assert_eq!(inside.lookup(southeast)?.account, Account(7));
/// let outside = Bed::combine(Choice::Outside, &bed, &zones, [0; 4])?;
/// assert_eq!(outside.lookup(southeast)?.account, Account::NOBODY);
/// # Ok::<(), kingletbed::Refusal>(())
/// ```
#[derive(Clone, Copy, Debug, PartialEq, Eq, Hash)]
pub enum Choice {
    /// Those where the second bed is somebody's: the intersection of the first bed with the second's held ground.
    Inside,
    /// Those where the second bed is nobody's or not scanned yet: their difference, the first bed without the second's
    /// held ground.
    Outside,
}

impl Choice {
    /// The choice's number, as in the C header.
    pub(crate) const fn number(self) -> u32 {
        match self {
            Choice::Inside => 0,
            Choice::Outside => 1,
        }
    }
}
