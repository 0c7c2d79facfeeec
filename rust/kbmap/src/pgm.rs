//! Pictures of beds: the PGM format, raw (P5) and plain (P2). A grey value is an account as it is; nothing is scaled.

use kingletbed::{raw, Account, HIGHEST_ORDER};
use std::io::{self, Write};

/// The largest maxval whose grey values take one byte each.
const ONE_BYTE: u32 = 255;
/// Values on a line of a plain picture. A row of a larger bed takes several lines, as the format asks for short ones.
const VALUES: usize = 16;

/// A picture of a bed: its order, the grey that counts as white, and the grey values row after row. They are fewer than
/// the bed's pixels if the picture ends early.
#[derive(Debug, PartialEq, Eq)]
pub struct Picture {
    pub order: u32,
    pub maxval: u32,
    pub greys: Vec<u8>,
}

/// Reads a picture, or says what is wrong with it.
pub fn read(bytes: &[u8]) -> Result<Picture, String> {
    let plain = match bytes.get(..2) {
        Some(b"P5") => false,
        Some(b"P2") => true,
        _ => return Err("no PGM picture: it begins neither with P5 nor with P2".to_owned()),
    };
    if bytes.get(2).is_some_and(|byte| !byte.is_ascii_whitespace() && *byte != b'#') {
        return Err("no PGM picture: no blank follows the P5 or P2 that it begins with".to_owned());
    }
    let mut items = Items { bytes, at: 2 };
    let (width, height) = (items.header("width")?, items.header("height")?);
    let maxval = items.header("maxval")?;
    if maxval == 0 || maxval > ONE_BYTE {
        return Err(format!("the maxval is {maxval}; pictures with a maxval from 1 to {ONE_BYTE} are read"));
    }
    let (order, side) = bed_of(width, height)?;
    let greys = if plain { items.plain(side)? } else { items.raw(side)? };
    match greys.iter().position(|&grey| u32::from(grey) > maxval) {
        Some(at) => {
            Err(format!("{}: grey value {} is above the picture's maxval, {maxval}", spot(at, side), greys[at]))
        }
        None => Ok(Picture { order, maxval, greys }),
    }
}

/// The order and the side of the bed that has so many columns and rows.
fn bed_of(width: u32, height: u32) -> Result<(u32, usize), String> {
    let sides = (0..=HIGHEST_ORDER).map(|order| raw::extent(order).side);
    match sides.clone().position(|side| (side, side) == (width, height)) {
        Some(order) => Ok((order as u32, width as usize)),
        None => {
            let sides: Vec<String> = sides.map(|side| side.to_string()).collect();
            let (last, others) = sides.split_last().expect("there is order 0");
            let others = others.join(", ");
            Err(format!(
                "the picture is {width} by {height} pixels; a bed is a square with a side of {others} or {last} pixels"
            ))
        }
    }
}

/// A pixel for messages, by its number in the raster.
pub fn spot(at: usize, side: usize) -> String {
    format!("column {}, row {}", at % side, at / side)
}

/// The bytes of a picture, read from the front.
struct Items<'a> {
    bytes: &'a [u8],
    at: usize,
}

impl<'a> Items<'a> {
    fn next(&mut self) -> Option<u8> {
        let byte = self.bytes.get(self.at).copied();
        self.at += usize::from(byte.is_some());
        byte
    }

    /// Passes over blanks, and over comments from # to the end of the line.
    fn skip(&mut self) {
        while let Some(&byte) = self.bytes.get(self.at) {
            match byte {
                b'#' => while !matches!(self.next(), None | Some(b'\n' | b'\r')) {},
                _ if byte.is_ascii_whitespace() => self.at += 1,
                _ => return,
            }
        }
    }

    /// The digits that come next, and what number they are; none above the 32-bit numbers.
    fn number(&mut self) -> Option<u32> {
        self.skip();
        let start = self.at;
        while self.bytes.get(self.at).is_some_and(u8::is_ascii_digit) {
            self.at += 1;
        }
        std::str::from_utf8(&self.bytes[start..self.at]).ok()?.parse().ok()
    }

    /// A number of the header.
    fn header(&mut self, what: &str) -> Result<u32, String> {
        let before = self.at;
        match self.number() {
            Some(number) if self.at > before => Ok(number),
            _ => Err(format!("the header has no good {what} at byte {}", self.at)),
        }
    }

    /// The pixels of a raw picture, as far as it goes: one blank, then a byte for each, and nothing behind them.
    fn raw(&mut self, side: usize) -> Result<Vec<u8>, String> {
        if !self.next().is_some_and(|byte| byte.is_ascii_whitespace()) {
            return Err(format!("the header does not end with a blank at byte {}", self.at));
        }
        let (rest, pixels) = (&self.bytes[self.at..], side * side);
        if rest.len() > pixels {
            return Err(format!("{pixels} bytes should follow the header, from byte {}; {} do", self.at, rest.len()));
        }
        Ok(rest.to_vec())
    }

    /// The pixels of a plain picture, as far as it goes: a number for each, and nothing behind them but blanks.
    fn plain(&mut self, side: usize) -> Result<Vec<u8>, String> {
        let mut greys = Vec::with_capacity(side * side);
        self.skip();
        while greys.len() < side * side && self.at < self.bytes.len() {
            let number = self.number();
            match number.map(u8::try_from) {
                Some(Ok(grey)) => greys.push(grey),
                Some(Err(_)) => return Err(format!("{}: a grey value above the maxval", spot(greys.len(), side))),
                None => return Err(format!("{}: no grey value at byte {}", spot(greys.len(), side), self.at)),
            }
            self.skip();
        }
        match self.bytes.get(self.at) {
            None => Ok(greys),
            Some(_) => Err(format!("more follows the last pixel, at byte {}", self.at)),
        }
    }
}

/// Writes the raster of a bed as a raw picture.
pub fn write_raw(out: &mut dyn Write, side: u32, raster: &[u8]) -> io::Result<()> {
    write!(out, "P5\n{side} {side}\n{}\n", Account::HIGHEST.0)?;
    out.write_all(raster)
}

/// Writes the raster of a bed as a plain picture.
pub fn write_plain(out: &mut dyn Write, side: u32, raster: &[u8]) -> io::Result<()> {
    write!(out, "P2\n{side} {side}\n{}\n", Account::HIGHEST.0)?;
    for row in raster.chunks(side as usize) {
        for line in row.chunks(VALUES) {
            let (first, rest) = line.split_first().expect("chunks are not empty");
            write!(out, "{first:2}")?;
            rest.iter().try_for_each(|grey| write!(out, " {grey:2}"))?;
            out.write_all(b"\n")?;
        }
    }
    Ok(())
}

#[cfg(test)]
mod tests {
    use super::*;

    const BED: [u8; 16] = [5, 5, 0, 0, 5, 5, 0, 9, 9, 0, 9, 9, 0, 0, 9, 9];

    #[test]
    fn written_and_read() {
        for write in [write_raw, write_plain] {
            let mut bytes = Vec::new();
            write(&mut bytes, 4, &BED).unwrap();
            assert_eq!(read(&bytes), Ok(Picture { order: 2, maxval: 63, greys: BED.to_vec() }));
        }
    }

    #[test]
    fn comments_and_blanks() {
        let bytes = b"P2 # a bed\n#two\r\n 2\t2# by two\n9\n1 2#three\n\n 3 4\n# end";
        assert_eq!(read(bytes), Ok(Picture { order: 1, maxval: 9, greys: vec![1, 2, 3, 4] }));
        let bytes = b"P5#\n2 2 #\n255\n# \n#";
        assert_eq!(read(bytes), Ok(Picture { order: 1, maxval: 255, greys: b"# \n#".to_vec() }));
    }

    fn wrong(bytes: &[u8]) -> String {
        read(bytes).unwrap_err()
    }

    #[test]
    fn bad_headers() {
        assert!(wrong(b"").contains("P5"));
        assert!(wrong(b"P6 2 2 255\n").contains("P5"));
        for magic in ["P22 2 63 1 2 3 4", "P55 2 2 63\n0000", "P2\0 2 2 63 1 2 3 4", "P2x"] {
            assert!(wrong(magic.as_bytes()).contains("no blank follows"), "{magic}");
        }
        assert_eq!(wrong(b"P5"), "the header has no good width at byte 2");
        assert_eq!(wrong(b"P5 2"), "the header has no good height at byte 4");
        assert_eq!(wrong(b"P5 2 x"), "the header has no good height at byte 5");
        assert_eq!(wrong(b"P5 2 99999999999 9\n"), "the header has no good height at byte 16");
        assert!(wrong(b"P5 2 2 0\n0000").contains("maxval is 0"));
        assert!(wrong(b"P5 2 2 65535\n00000000").contains("from 1 to 255"));
        assert!(wrong(b"P5 2 2 63").contains("end with a blank"));
    }

    #[test]
    fn no_beds() {
        let sides = "a bed is a square with a side of 1, 2, 4, 8, 16, 32, 64, 128, 256, 512 or 1024 pixels";
        for (width, height) in [(3, 3), (2, 4), (0, 0), (2048, 2048), (u32::MAX, u32::MAX)] {
            let text = wrong(format!("P5 {width} {height} 63\n").as_bytes());
            assert_eq!(text, format!("the picture is {width} by {height} pixels; {sides}"));
        }
    }

    #[test]
    fn bad_pixels() {
        assert_eq!(wrong(b"P5 2 2 63\r\nabcd"), "4 bytes should follow the header, from byte 10; 5 do");
        assert_eq!(wrong(b"P5 2 2 9\n\0\0\x0a\0"), "column 0, row 1: grey value 10 is above the picture's maxval, 9");
        assert_eq!(wrong(b"P2 2 2 9 1 2 3 10"), "column 1, row 1: grey value 10 is above the picture's maxval, 9");
        assert_eq!(wrong(b"P2 2 2 9 1 2 300 4"), "column 0, row 1: a grey value above the maxval");
        assert_eq!(wrong(b"P2 2 2 9 1 -2 3 4"), "column 1, row 0: no grey value at byte 11");
        assert_eq!(wrong(b"P2 2 2 9 1 2 3 99999999999"), "column 1, row 1: no grey value at byte 26");
        assert_eq!(wrong(b"P2 2 2 9 1 2 3 4 5"), "more follows the last pixel, at byte 17");
    }

    /// The pixels that are there, and no more.
    #[test]
    fn pictures_that_end_early() {
        let picture = |bytes: &[u8]| read(bytes).map(|picture| (picture.order, picture.greys));
        assert_eq!(picture(b"P5 2 2 63\n\x07\x08\x09"), Ok((1, vec![7, 8, 9])));
        assert_eq!(picture(b"P5 2 2 63\n"), Ok((1, vec![])));
        for text in ["P2 2 2 9 7 8 9", "P2 2 2 9 7 8 9\n", "P2 2 2 9\n7 8 9 # and no more"] {
            assert_eq!(picture(text.as_bytes()), Ok((1, vec![7, 8, 9])), "{text}");
        }
        assert_eq!(picture(b"P2 2 2 9 # none\n"), Ok((1, vec![])));
        assert_eq!(picture(b"P2 2 2 9"), Ok((1, vec![])));
    }

    #[test]
    fn short_lines() {
        let mut bytes = Vec::new();
        write_plain(&mut bytes, 1024, &vec![63; 1 << 20]).unwrap();
        assert!(bytes.split(|&byte| byte == b'\n').all(|line| line.len() <= 70));
    }
}
