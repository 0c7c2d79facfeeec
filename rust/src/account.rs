//! Accounts.

use core::fmt;

/// Who holds a pixel. 1 to 7 are staff, 8 to 47 students, 48 to 63 guests.
///
/// ```
/// use kingletbed::Account;
/// assert_eq!(Account(9).to_string(), "account 9");
/// assert_eq!(Account::NOBODY.to_string(), "nobody");
/// ```
#[derive(Clone, Copy, Debug, PartialEq, Eq, PartialOrd, Ord, Hash)]
pub struct Account(pub u8);

impl Account {
    /// Account 0: the pixel is nobody's.
    ///
    /// ```
    /// assert_eq!(kingletbed::Account::NOBODY.0, 0);
    /// ```
    pub const NOBODY: Account = Account(0);

    /// The highest account that a call takes.
    ///
    /// ```
    /// assert_eq!(kingletbed::Account::HIGHEST.0, 63);
    /// ```
    pub const HIGHEST: Account = Account(63);
}

impl fmt::Display for Account {
    fn fmt(&self, f: &mut fmt::Formatter) -> fmt::Result {
        match *self {
            Account::NOBODY => f.write_str("nobody"),
            Account(number) => write!(f, "account {number}"),
        }
    }
}
