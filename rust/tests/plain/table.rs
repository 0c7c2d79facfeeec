//! The table of rights in the papers' words: who asks, whose the pixel is, and a yes or no for each. Answers begin with
//! the number.

/// Who asks, or who holds a pixel.
#[derive(Clone, Copy, Debug, PartialEq, Eq)]
pub enum Class {
    Staff,
    Student,
    Guest,
}

/// The classes as the rows have them.
const ROWS: [Class; 3] = [Class::Staff, Class::Student, Class::Guest];

pub fn class(account: u8) -> Class {
    match account {
        1..=7 => Class::Staff,
        8..=47 => Class::Student,
        48..=63 => Class::Guest,
        _ => panic!("account {account} has no class"),
    }
}

/// Whose a pixel is to the one who asks.
#[derive(Clone, Copy, Debug, PartialEq, Eq)]
pub enum Ground {
    Own,
    Nobodys,
    Anothers(Class),
}

/// The grounds as the columns have them.
const COLUMNS: [Ground; 5] = [
    Ground::Own,
    Ground::Nobodys,
    Ground::Anothers(Class::Guest),
    Ground::Anothers(Class::Student),
    Ground::Anothers(Class::Staff),
];

fn ground(asking: u8, holder: u8) -> Ground {
    match holder {
        _ if holder == asking => Ground::Own,
        0 => Ground::Nobodys,
        _ => Ground::Anothers(class(holder)),
    }
}

/// Every yes of a table.
#[derive(Clone, Debug, PartialEq, Eq)]
pub struct Table {
    yes: Vec<(Class, Ground)>,
}

impl Table {
    /// A table by a rule.
    fn by(rule: impl Fn(Class, Ground) -> bool) -> Table {
        let cells = ROWS.into_iter().flat_map(|asking| COLUMNS.map(|ground| (asking, ground)));
        Table { yes: cells.filter(|&(asking, ground)| rule(asking, ground)).collect() }
    }

    /// Document 01's.
    pub fn old() -> Table {
        Table::by(|asking, ground| match (asking, ground) {
            (_, Ground::Own) => true,
            (Class::Guest, _) => false,
            (_, Ground::Nobodys) => true,
            (Class::Student, _) => false,
            (Class::Staff, Ground::Anothers(holder)) => holder != Class::Staff,
        })
    }

    fn says(&self, asking: Class, ground: Ground) -> bool {
        self.yes.contains(&(asking, ground))
    }

    /// Whether each class may place on its own pixels, a student has every yes of a guest, and staff every yes of a
    /// student.
    fn sound(&self) -> bool {
        let has_every = |higher, lower| COLUMNS.iter().all(|&at| !self.says(lower, at) || self.says(higher, at));
        ROWS.iter().all(|&asking| self.says(asking, Ground::Own))
            && has_every(Class::Student, Class::Guest)
            && has_every(Class::Staff, Class::Student)
    }

    /// The table of fifteen bytes, or 55, then 56.
    pub fn of_bytes(bytes: &[u8]) -> Result<Table, u32> {
        if bytes.len() != 15 || bytes.iter().any(|&byte| byte != 0 && byte != 1) {
            return Err(55);
        }
        let place = |asking, ground| {
            let (row, column) = (ROWS.iter().position(|&at| at == asking), COLUMNS.iter().position(|&at| at == ground));
            5 * row.expect("a row") + column.expect("a column")
        };
        let table = Table::by(|asking, ground| bytes[place(asking, ground)] == 1);
        if table.sound() {
            Ok(table)
        } else {
            Err(56)
        }
    }

    /// The table that counts where these bytes are handed in.
    pub fn in_force(bytes: &[u8]) -> Table {
        Table::of_bytes(bytes).unwrap_or_else(|_| Table::old())
    }

    pub fn may(&self, asking: u8, holder: u8) -> bool {
        self.says(class(asking), ground(asking, holder))
    }

    /// Its bytes, row after row.
    pub fn bytes(&self) -> Vec<u8> {
        ROWS.iter().flat_map(|&asking| COLUMNS.map(|ground| u8::from(self.says(asking, ground)))).collect()
    }
}

/// A file's table, or 55 for another count, and then as the bytes behind the count are refused.
pub fn read(file: &[u8]) -> Result<Table, u32> {
    match file.split_first() {
        Some((15, bytes)) => Table::of_bytes(bytes),
        _ => Err(55),
    }
}

/// The number, and what the table in force is then.
pub fn load(file: &[u8], table: &[u8]) -> (u32, Vec<u8>) {
    if table.len() != 15 {
        return (55, table.to_vec());
    }
    match read(file) {
        Ok(loaded) => (0, loaded.bytes()),
        Err(number) => (number, table.to_vec()),
    }
}
