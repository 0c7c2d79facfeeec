//! Why a call refused.

use core::fmt;

/// One table: name, number, words.
macro_rules! refusals {
    ($($name:ident = $number:literal, $words:literal;)*) => {
        /// The check that was broken first. It prints in words.
        ///
        /// ```
        /// use kingletbed::{Bed, Kind, Refusal};
        /// let refusal = Bed::fresh(Kind::Rows, 11, [0; 4]).unwrap_err();
        /// assert_eq!(refusal, Refusal::OrderTooLarge);
        /// assert_eq!(refusal.number(), 1);
        /// assert_eq!(refusal.to_string(), "the order is above 10");
        /// ```
        #[derive(Clone, Copy, Debug, PartialEq, Eq, Hash)]
        #[non_exhaustive]
        pub enum Refusal {
            $(#[doc = concat!($number, ": ", $words, ".")] $name = $number,)*
        }

        impl Refusal {
            /// Every refusal, by rising number.
            ///
            /// ```
            /// use kingletbed::Refusal;
            /// assert_eq!(Refusal::ALL.len(), 27);
            /// ```
            pub const ALL: &'static [Refusal] = &[$(Refusal::$name,)*];

            /// The refusal's name, as in the C header but for its `KB_`.
            ///
            /// ```
            /// use kingletbed::Refusal;
            /// assert_eq!(Refusal::SlotsExceeded.name(), "SLOTS_EXCEEDED");
            /// ```
            #[must_use]
            pub const fn name(self) -> &'static str {
                match self {
                    $(Refusal::$name => {
                        const LETTERS: [u8; header_length(stringify!($name))] = header_letters(stringify!($name));
                        const NAME: &str = match core::str::from_utf8(&LETTERS) {
                            Ok(name) => name,
                            Err(_) => panic!("a name of the table has other letters than a to z"),
                        };
                        NAME
                    })*
                }
            }
        }

        impl fmt::Display for Refusal {
            fn fmt(&self, f: &mut fmt::Formatter) -> fmt::Result {
                f.write_str(match self { $(Refusal::$name => $words,)* })
            }
        }
    };
}

refusals! {
    OrderTooLarge = 1, "the order is above 10";
    CountAboveSlots = 2, "the tile count is above the number of slots";
    HighBitsSet = 11, "a tile word has bit 31 or 30 set";
    SizeAboveOrder = 12, "a tile is larger than the bed";
    CornerInvalid = 13, "a tile's corner is off the bed or not a multiple of its area";
    AccountZero = 14, "a tile has account 0";
    TilesOverlap = 15, "a tile begins before the end of the tile ahead of it";
    SiblingsUnmerged = 16, "four tiles of one account are the quarters of one block and should be one tile";
    ScannedTooLarge = 21, "more pixels are scanned than the bed has";
    TileUnscanned = 22, "a tile covers a pixel that is not scanned yet";
    ScanFull = 23, "the scan already has every pixel";
    AccountTooLarge = 24, "the account is above 63";
    SlotsExceeded = 25, "the list would have more tiles than there are slots";
    BytesTooFew = 26, "the bytes lent are fewer than the file or the text takes";
    PointOutside = 31, "the pixel is off the bed";
    BlockInvalid = 32, "the block is larger than the bed, off the bed, or its corner not a multiple of its area";
    RasterLength = 33, "the raster does not have one byte for each pixel";
    AskerInvalid = 34, "the asking account is 0 or above 63";
    FileCutShort = 41, "the file ends too early";
    TrailingBytes = 42, "bytes follow the end of the file's roster";
    RosterWrong = 43, "the file's roster does not match its tiles";
    OrdersDiffer = 51, "the two maps have different orders";
    Unscanned = 52, "the pixel, the block or the bed is not wholly scanned yet";
    PositionInvalid = 53, "the text is no position in mils, or the position is off the bed";
    RosterUnsorted = 54, "the accounts in the file's roster do not rise from entry to entry";
    TableMalformed = 55, "the table of rights has a wrong count, a wrong length or a byte above 1";
    TableUnsound = 56, "a row of the table of rights lacks a yes that it must have";
}

/// How many letters the header's spelling of a name has: one more for each capital but the first.
const fn header_length(name: &str) -> usize {
    let (bytes, mut at, mut length) = (name.as_bytes(), 0, 0);
    while at < bytes.len() {
        length += if at > 0 && bytes[at].is_ascii_uppercase() { 2 } else { 1 };
        at += 1;
    }
    length
}

/// The header's spelling of a name: in capitals, and an underscore ahead of each capital but the first.
const fn header_letters<const LENGTH: usize>(name: &str) -> [u8; LENGTH] {
    let (bytes, mut at, mut to, mut letters) = (name.as_bytes(), 0, 0, [b'_'; LENGTH]);
    while at < bytes.len() {
        to += if at > 0 && bytes[at].is_ascii_uppercase() { 1 } else { 0 };
        letters[to] = bytes[at].to_ascii_uppercase();
        at += 1;
        to += 1;
    }
    letters
}

impl Refusal {
    /// The refusal's number, as in the C header.
    ///
    /// ```
    /// use kingletbed::Refusal;
    /// assert_eq!(Refusal::SlotsExceeded.number(), 25);
    /// ```
    #[must_use]
    pub const fn number(self) -> u32 {
        self as u32
    }

    /// The refusal with a number.
    ///
    /// ```
    /// use kingletbed::Refusal;
    /// assert_eq!(Refusal::from_number(25), Some(Refusal::SlotsExceeded));
    /// assert_eq!(Refusal::from_number(0), None);
    /// ```
    #[must_use]
    pub fn from_number(number: u32) -> Option<Refusal> {
        Refusal::ALL.iter().copied().find(|refusal| refusal.number() == number)
    }

    /// What the library answered, as a result. It is proved to answer 0 or a number of the table. Should another
    /// library be linked that answers a number between them, that is a refusal all the same, and reads as the one whose
    /// number is next below: nothing here panics, and no refusal passes for an acceptance.
    pub(crate) fn outcome(number: u32) -> Result<(), Refusal> {
        match number {
            0 => Ok(()),
            _ => Err(Refusal::ALL
                .iter()
                .copied()
                .rfind(|refusal| refusal.number() <= number)
                .unwrap_or(Refusal::OrderTooLarge)),
        }
    }
}

impl core::error::Error for Refusal {}

#[cfg(test)]
mod tests {
    use super::Refusal;

    /// A known number is its own refusal, and no other number but 0 is accepted.
    #[test]
    fn outcomes() {
        assert_eq!(Refusal::outcome(0), Ok(()));
        for number in 1..=57 {
            let refusal = Refusal::outcome(number).expect_err("a refusal");
            assert!(refusal.number() <= number);
            assert_eq!(Refusal::from_number(number).unwrap_or(refusal), refusal);
        }
        assert_eq!(Refusal::outcome(u32::MAX), Err(Refusal::TableUnsound));
    }

    #[test]
    fn names() {
        assert_eq!(Refusal::OrderTooLarge.name(), "ORDER_TOO_LARGE");
        assert!(Refusal::ALL.iter().all(|refusal| refusal.name().chars().all(|c| c == '_' || c.is_ascii_uppercase())));
    }
}
