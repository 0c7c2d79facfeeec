//! Positions in mils, thousandths of an inch, as the lab's older layout tool has them in its board files: one to five
//! digits, a point and two digits, with no needless leading zero. A position is a distance from the bed's west edge,
//! which leads to a column, or from its north edge, which leads to a row. The calls here go by one coordinate on a bed
//! of an order, a column or a row alike, and name it the pixel; [`Pixel::at_mils`](crate::Pixel::at_mils) takes both. A
//! pixel is 400 micrometres wide and an inch is 25,400: h hundredths of a mil lie in pixel h * 127 / 200,000, rounded
//! down.
//!
//! ```
//! use kingletbed::mils;
//! assert_eq!(mils::pixel(10, b"123.45")?, 7);
//! assert_eq!(mils::text(10, 7)?.as_str(), "110.24"); // where the pixel begins
//! assert_eq!(mils::pixel(10, b"110.24")?, 7);
//! assert_eq!(mils::pixel(10, b"110.23")?, 6);
//! # Ok::<(), kingletbed::Refusal>(())
//! ```

use crate::{raw, Refusal};
use core::fmt;

/// The most bytes that the text of a position has.
///
/// ```
/// use kingletbed::mils;
/// assert_eq!(mils::text(10, 1023)?.as_bytes().len(), mils::TEXT_MOST);
/// # Ok::<(), kingletbed::Refusal>(())
/// ```
pub const TEXT_MOST: usize = 8;

/// The pixel of a position on a bed of an order. Every byte of the text counts: a blank or a line feed is refused.
///
/// ```
/// use kingletbed::{mils, Refusal};
/// assert_eq!(mils::pixel(10, b"16125.98"), Ok(1023));
/// assert_eq!(mils::pixel(10, b"16125.99"), Err(Refusal::PositionInvalid)); // off the bed
/// assert_eq!(mils::pixel(10, b"0.45"), Ok(0));
/// for text in [".45", "00.45", "01.00", "1.0", "1,00", "+1.00", " 1.00", "1.00\n", ""] {
///     assert_eq!(mils::pixel(10, text.as_bytes()), Err(Refusal::PositionInvalid));
/// }
/// ```
pub fn pixel(order: u32, text: &[u8]) -> Result<u32, Refusal> {
    let answer = raw::mils_pixel(order, text);
    Refusal::outcome(answer.number)?;
    Ok(answer.pixel)
}

/// The smallest position of a pixel on a bed of an order, in hundredths of a mil: where the pixel begins.
///
/// ```
/// use kingletbed::{mils, Refusal};
/// assert_eq!(mils::hundredths(10, 1023), Ok(1_611_024));
/// assert_eq!(mils::hundredths(9, 1023), Err(Refusal::PointOutside));
/// ```
pub fn hundredths(order: u32, pixel: u32) -> Result<u32, Refusal> {
    let answer = raw::mils_h(order, pixel);
    Refusal::outcome(answer.number)?;
    Ok(answer.h)
}

/// The text of the smallest position of a pixel on a bed of an order. [`pixel`] leads it to that pixel again.
///
/// ```
/// use kingletbed::{mils, Refusal};
/// let text = mils::text(10, 1023)?;
/// assert_eq!(text.to_string(), "16110.24");
/// assert_eq!(mils::pixel(10, text.as_bytes())?, 1023);
/// assert_eq!(mils::text(9, 1023), Err(Refusal::PointOutside));
/// # Ok::<(), kingletbed::Refusal>(())
/// ```
pub fn text(order: u32, pixel: u32) -> Result<Text, Refusal> {
    let mut bytes = [0; TEXT_MOST];
    let answer = raw::mils_text(order, pixel, &mut bytes);
    Refusal::outcome(answer.number)?;
    Ok(Text { bytes, length: answer.length })
}

/// The text of a position, from [`text`].
///
/// ```
/// use kingletbed::mils::{self, Text};
/// let text: Text = mils::text(2, 3)?;
/// assert_eq!(format!("{text}, {text:>6}, {text:?}"), "47.25,  47.25, Text(\"47.25\")");
/// assert_eq!(text, mils::text(3, 3)?);
/// # Ok::<(), kingletbed::Refusal>(())
/// ```
#[derive(Clone, Copy, PartialEq, Eq, Hash)]
pub struct Text {
    /// The text, then 0.
    bytes: [u8; TEXT_MOST],
    length: usize,
}

// No call here can panic, whatever the library answered.
impl Text {
    /// The bytes of the text, with no closing 0.
    ///
    /// ```
    /// assert_eq!(kingletbed::mils::text(2, 0)?.as_bytes(), b"0.00");
    /// # Ok::<(), kingletbed::Refusal>(())
    /// ```
    #[must_use]
    pub fn as_bytes(&self) -> &[u8] {
        self.bytes.get(..self.length).unwrap_or_default()
    }

    /// The text: digits and a point.
    ///
    /// ```
    /// assert_eq!(kingletbed::mils::text(2, 0)?.as_str(), "0.00");
    /// # Ok::<(), kingletbed::Refusal>(())
    /// ```
    #[must_use]
    pub fn as_str(&self) -> &str {
        core::str::from_utf8(self.as_bytes()).unwrap_or_default()
    }
}

impl fmt::Display for Text {
    fn fmt(&self, f: &mut fmt::Formatter) -> fmt::Result {
        f.pad(self.as_str())
    }
}

impl fmt::Debug for Text {
    fn fmt(&self, f: &mut fmt::Formatter) -> fmt::Result {
        f.debug_tuple("Text").field(&self.as_str()).finish()
    }
}
