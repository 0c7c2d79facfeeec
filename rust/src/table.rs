//! The table of rights.

use crate::{raw, Refusal};

/// Who may place where, as the lab says it: a row each for staff, students and guests, who ask, by five columns, the
/// asker's own pixel, nobody's, another guest's, another student's, another staff member's. The bed does not keep it:
/// [`Bed::rights`](crate::Bed::rights) is handed the table in force.
///
/// ```text
///            own   nobody's   guest's   student's   staff's
/// staff      yes   yes        yes       yes         no
/// student    yes   yes        no        no          no         the old table
/// guest      yes   no         no        no          no
/// ```
///
/// A table is the old one, or one that a load accepted: each row says yes to its own pixels, a student has every yes of
/// a guest and staff every yes of a student, column by column.
///
/// ```
/// use kingletbed::{Account, Bed, Pixel, Refusal, Table};
/// let bed = Bed::from_slots(1, 0, [])?;
/// let (guest, nobodys) = (Account(48), Pixel { column: 0, row: 0 });
/// let mut table = Table::OLD;
/// assert!(!bed.rights(&table, nobodys, guest)?);
/// table.load(&[15, 1, 1, 1, 1, 0, 1, 1, 0, 0, 0, 1, 1, 0, 0, 0])?;
/// assert!(bed.rights(&table, nobodys, guest)?);
///
/// // Refused, the table in force is kept.
/// assert_eq!(table.load(&[15; 16]), Err(Refusal::TableMalformed));
/// assert!(bed.rights(&table, nobodys, guest)?);
/// # Ok::<(), kingletbed::Refusal>(())
/// ```
///
/// It cannot be made of any other bytes:
///
/// ```compile_fail,E0423
/// let table = kingletbed::Table([0; 15]);
/// ```
#[derive(Clone, Copy, Debug, PartialEq, Eq, Hash)]
pub struct Table([u8; Table::LENGTH]);

impl Table {
    /// The bytes of a table.
    ///
    /// ```
    /// use kingletbed::Table;
    /// assert_eq!(Table::OLD.bytes().len(), Table::LENGTH);
    /// ```
    pub const LENGTH: usize = 15;

    /// The bytes of its file.
    ///
    /// ```
    /// use kingletbed::Table;
    /// assert_eq!(Table::OLD.file().len(), Table::FILE_LENGTH);
    /// ```
    pub const FILE_LENGTH: usize = 1 + Table::LENGTH;

    /// The old table, which is in force until a load is accepted.
    ///
    /// ```
    /// use kingletbed::Table;
    /// assert_eq!(Table::from_file(&[15, 1, 1, 1, 1, 0, 1, 1, 0, 0, 0, 1, 0, 0, 0, 0]), Ok(Table::OLD));
    /// assert_eq!(Table::default(), Table::OLD);
    /// ```
    pub const OLD: Table = Table([
        1, 1, 1, 1, 0, // staff
        1, 1, 0, 0, 0, // students
        1, 0, 0, 0, 0, // guests
    ]);

    /// Puts the table of a file in the place of this one. The file has a count, 15, and the table's 15 bytes, row after
    /// row, 1 for yes and 0 for no. Another file is refused as [`Refusal::TableMalformed`], and then as
    /// [`Refusal::TableUnsound`] one whose table has a row that lacks a yes; this table then stays.
    ///
    /// ```
    /// use kingletbed::{Refusal, Table};
    /// let mut table = Table::OLD;
    /// // On nobody's pixels a guest has a yes, and a student has none.
    /// assert_eq!(table.load(&[15, 1, 1, 1, 1, 0, 1, 0, 0, 0, 0, 1, 1, 0, 0, 0]), Err(Refusal::TableUnsound));
    /// assert_eq!(table, Table::OLD);
    /// table.load(&[15, 1, 1, 1, 1, 0, 1, 1, 0, 0, 0, 1, 1, 0, 0, 0])?;
    /// assert_ne!(table, Table::OLD);
    /// # Ok::<(), kingletbed::Refusal>(())
    /// ```
    pub fn load(&mut self, file: &[u8]) -> Result<(), Refusal> {
        Refusal::outcome(raw::load(file, &mut self.0))
    }

    /// The table of a file, refused as by [`load`](Table::load).
    ///
    /// ```
    /// use kingletbed::{Refusal, Table};
    /// assert_eq!(Table::from_file(&Table::OLD.file()), Ok(Table::OLD));
    /// assert_eq!(Table::from_file(&[]), Err(Refusal::TableMalformed));
    /// assert_eq!(Table::from_file(&[15, 0, 0, 0, 0, 0, 0, 0, 0, 0, 0, 0, 0, 0, 0, 0]), Err(Refusal::TableUnsound));
    /// ```
    pub fn from_file(file: &[u8]) -> Result<Table, Refusal> {
        let mut table = Table::OLD;
        table.load(file)?;
        Ok(table)
    }

    /// The file that loads the table.
    ///
    /// ```
    /// use kingletbed::Table;
    /// assert_eq!(Table::OLD.file(), [15, 1, 1, 1, 1, 0, 1, 1, 0, 0, 0, 1, 0, 0, 0, 0]);
    /// ```
    #[must_use]
    pub fn file(&self) -> [u8; Table::FILE_LENGTH] {
        let mut file = [Table::LENGTH as u8; Table::FILE_LENGTH];
        file.iter_mut().skip(1).zip(self.0).for_each(|(to, byte)| *to = byte);
        file
    }

    /// The table's bytes, row after row: 1 for yes, 0 for no. They are what a C host keeps.
    ///
    /// ```
    /// use kingletbed::Table;
    /// let guests = &Table::OLD.bytes()[10..];
    /// assert_eq!(guests, [1, 0, 0, 0, 0]);
    /// ```
    #[must_use]
    pub const fn bytes(&self) -> &[u8; Table::LENGTH] {
        &self.0
    }
}

/// The old table.
impl Default for Table {
    fn default() -> Table {
        Table::OLD
    }
}
