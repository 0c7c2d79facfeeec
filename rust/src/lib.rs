//! Which account holds each pixel of a machine's bed, kept as a linear quadtree in slots that you lend.
//!
//! A bed of order n has 2^n columns by 2^n rows of pixels, n from 0 to 10. Each pixel has an account from 0 to 63; 0 is
//! nobody's. A [`Bed`] has its slots, by value or by borrow, and in them a word for each of its [`Tile`]s: the largest
//! blocks of one account, by rising Morton number. It is filled from account bytes, by rows or in Morton order, read
//! from a file, made of slots that have a list already, or combined of two beds: the first's pixels inside the second's
//! held ground, or outside it. A lookup tells whose a pixel is, and the largest block around it that is all of that
//! account and wholly scanned. Ground that the scan has not reached yet is not free: what is asked or claimed there is
//! refused. Who may place where is said by a [`Table`], the old one or the lab's own.
//!
//! ```
//! use kingletbed::{Account, Bed, Block, Kind, Pixel, Table};
//!
//! # fn main() -> Result<(), Box<dyn std::error::Error>> {
//! let mut bed = Bed::fresh(Kind::Rows, 2, [0; 16])?;
//! bed.feed(&[5, 5, 0, 0, 5, 5, 0, 9, 9, 0, 9, 9, 0, 0, 9, 9])?;
//! assert_eq!(bed.tiles().len(), 4);
//! assert_eq!(bed.lookup(Pixel { column: 3, row: 1 })?.account, Account(9));
//!
//! bed.claim(Block { corner: 4, size: 1 }, Account(9))?;
//! assert_eq!(bed.lookup(Pixel { column: 2, row: 0 })?.account, Account(9));
//! assert!(!bed.rights(&Table::OLD, Pixel { column: 2, row: 0 }, Account(48))?);
//! # Ok(())
//! # }
//! ```
//!
//! A board file's position in thousandths of an inch, as `123.45`, is led to its pixel by [`Pixel::at_mils`]; [`mils`]
//! has one coordinate by itself, and the way back.
//!
//! Every call answers. What it does not accept it refuses with a [`Refusal`], which says in words what was wrong, and a
//! refused call changes nothing, except that a feed keeps the pixels ahead of the one that stopped it. The library
//! behind this wrapper is proved to do so, for every list, every input and every sequence of calls; Morton numbers,
//! blocks, extents, positions and the fields of a word are the library's too. The wrapper gives the numbers types and
//! ties a list to its slots. It needs no heap and no `std`, and does not panic. Each call on a bed checks the list it
//! finds, one pass over its tiles, and one more on an unfinished scan. The calls as C has them are in [`raw`].

#![no_std]
#![deny(unsafe_code, missing_docs)]

#[cfg(test)]
extern crate std;

mod account;
mod ask;
mod bed;
mod block;
mod choice;
pub mod mils;
#[allow(unsafe_code)]
pub mod raw;
mod refusal;
mod scan;
mod table;
mod tile;

pub use account::Account;
pub use bed::Bed;
pub use block::{Block, Found, Pixel};
pub use choice::Choice;
pub use refusal::Refusal;
pub use scan::{Kind, Stopped};
pub use table::Table;
pub use tile::{Shown, Tile, Tiles};

/// Orders and sizes go from 0 to it.
///
/// ```
/// use kingletbed::{Bed, Kind, HIGHEST_ORDER};
/// assert!(Bed::fresh(Kind::Rows, HIGHEST_ORDER, [0; 4]).is_ok());
/// assert!(Bed::fresh(Kind::Rows, HIGHEST_ORDER + 1, [0; 4]).is_err());
/// ```
pub const HIGHEST_ORDER: u32 = 10;

/// The examples of the package's README are tested with the others.
#[cfg(doctest)]
#[doc = include_str!("../README.md")]
struct Readme;
