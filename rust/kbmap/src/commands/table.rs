//! `table`: a table of rights shown, or made.

use super::tell;
use crate::failure::Failure;
use crate::input::Source;
use crate::output::{print, Target};
use crate::table;
use kingletbed::Table;

/// The rows of a table file.
pub fn show_table(file: &Source) -> Result<(), Failure> {
    let table = table::open(file)?;
    print(&format!("{}: a table of rights\n{}", file.name(), table::rows(&table)))
}

/// Makes a file of a table's bytes, if a load accepts it.
pub fn make_table(bytes: &[u8; Table::LENGTH], out: &Target) -> Result<(), Failure> {
    let mut file = [Table::LENGTH as u8; Table::FILE_LENGTH];
    file[1..].copy_from_slice(bytes);
    let table = table::of_file(out.name(), &file)?;
    out.write_bytes(&|writer| writer.write_all(&table.file()))?;
    tell(out, &format!("{}: a table of rights\n{}", out.name(), table::rows(&table).trim_end()))
}
