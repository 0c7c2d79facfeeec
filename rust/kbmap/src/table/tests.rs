//! Tables in words, and each refusal of a table's file with what is said of it.

use super::{rows, wrong};
use kingletbed::Table;

const WORKSHOP: [u8; 16] = [15, 1, 1, 1, 1, 0, 1, 1, 0, 0, 0, 1, 1, 0, 0, 0];

/// The refusal's number of the workshop's file with some bytes changed, and what is said.
fn told(change: impl Fn(&mut Vec<u8>), number: u32, text: &str) {
    let mut file = WORKSHOP.to_vec();
    change(&mut file);
    let refusal = Table::from_file(&file).unwrap_err();
    assert_eq!((refusal.number(), wrong(&file, refusal).join("\n")), (number, text.to_owned()));
}

#[test]
fn shown() {
    let text = "  asking   own  nobody's  guest's  student's  staff's
  staff    yes  yes       yes      yes        no
  student  yes  yes       no       no         no
  guest    yes  no        no       no         no
";
    assert_eq!(rows(&Table::OLD), text);
    let workshop = Table::from_file(&WORKSHOP).unwrap();
    assert_eq!(rows(&workshop), text.replace("guest    yes  no ", "guest    yes  yes"));
}

#[test]
fn counts_and_lengths() {
    told(|file| file[0] = 14, 55, "byte 0: the count is 14, and should be 15");
    told(|file| file.clear(), 55, "the file is empty; a count and 15 bytes take 16");
    told(|file| file.truncate(1), 55, "the file has 1 byte; a count and 15 bytes take 16");
    told(|file| file.push(2), 55, "the file has 17 bytes; a count and 15 bytes take 16");
    let both = "byte 0: the count is 1, and should be 15\nthe file has 15 bytes; a count and 15 bytes take 16";
    told(|file| *file = WORKSHOP[1..].to_vec(), 55, both);
}

#[test]
fn bytes_above_one() {
    let first = "byte 1, staff, own: 2, and should be 1 for yes or 0 for no";
    told(|file| file[1] = 2, 55, first);
    let last = "byte 15, guest, staff's: 255, and should be 1 for yes or 0 for no";
    let both = |file: &mut Vec<u8>| {
        file[1] = 2;
        file[15] = 255;
    };
    told(both, 55, &format!("{first}\n{last}"));
    // With another count the bytes need not be a table's.
    told(|file| *file = vec![2; 16], 55, "byte 0: the count is 2, and should be 15");
}

#[test]
fn lacking_rows() {
    let own = "no, and each row must say yes to its own pixels";
    told(|file| file[11] = 0, 56, &format!("byte 11, guest, own: {own}"));
    told(|file| file[1] = 0, 56, &format!("byte 1, staff, own: {own}"));
    let guests = "no, where a guest has a yes; a student must have it too";
    told(|file| file[13] = 1, 56, &format!("byte 8, student, guest's: {guests}"));
    let students = "no, where a student has a yes; staff must have it too";
    told(|file| file[10] = 1, 56, &format!("byte 5, staff, staff's: {students}"));
    let several = |file: &mut Vec<u8>| *file = vec![15, 1, 0, 1, 1, 0, 0, 1, 0, 0, 0, 1, 1, 0, 0, 1];
    let lines = [
        format!("byte 2, staff, nobody's: {students}"),
        format!("byte 6, student, own: {own}"),
        format!("byte 10, student, staff's: {guests}"),
    ];
    told(several, 56, &lines.join("\n"));
}

/// Whatever is refused is told with at least one line: every table of bits, every byte, every length.
#[test]
fn every_refusal_is_told() {
    let told = |file: &[u8]| {
        if let Err(refusal) = Table::from_file(file) {
            assert!(!wrong(file, refusal).is_empty(), "{refusal:?} of {file:?}");
        }
    };
    for bits in 0..1u32 << 15 {
        let bytes = (0..15).map(|at| (bits >> at & 1) as u8);
        told(&[15].into_iter().chain(bytes).collect::<Vec<u8>>());
    }
    for (at, byte) in (0..16).flat_map(|at| (0..=u8::MAX).map(move |byte| (at, byte))) {
        let mut file = WORKSHOP;
        file[at] = byte;
        told(&file);
    }
    for length in 0..40 {
        told(&[[15; 40], [1; 40]].concat()[39..][..length]);
    }
}
