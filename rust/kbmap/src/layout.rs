//! Where the items of a map file stand, by docs/RULES.md: the order in byte 0, the tile count in bytes 1 to 4, a word
//! in each 4 bytes from byte 5 on, then the number of roster entries in 1 byte and each entry in 5, by rising account.
//! Whether a file is a map at all, the library says; this tells of one that is refused where the trouble stands, and of
//! one that is accepted what its roster has.

use kingletbed::Account;

/// The bytes ahead of the tile words.
pub const HEAD: usize = 5;
/// The bytes of a tile word, and of a roster entry.
const WORD: usize = 4;
const ENTRY: usize = 5;

/// The bytes of a file, good or bad.
#[derive(Clone, Copy)]
pub struct Layout<'a> {
    pub bytes: &'a [u8],
}

impl<'a> Layout<'a> {
    /// The order; 0 if the file has no byte at all.
    pub fn order(self) -> u32 {
        self.bytes.first().copied().unwrap_or(0).into()
    }

    /// The tile count, if the file has it.
    pub fn tiles(self) -> Option<usize> {
        self.word_at(1)
    }

    fn word_at(self, at: usize) -> Option<usize> {
        let bytes = self.bytes.get(at..at + WORD)?.try_into().ok()?;
        usize::try_from(u32::from_be_bytes(bytes)).ok()
    }

    /// The tile words that are there, at most as many as the tile count says.
    pub fn words(self) -> Vec<u32> {
        let bytes = self.bytes.get(HEAD..).unwrap_or_default();
        let words = bytes.chunks_exact(WORD).map(|word| u32::from_be_bytes([word[0], word[1], word[2], word[3]]));
        words.take(self.tiles().unwrap_or(0)).collect()
    }

    /// The byte at which a tile word begins; of the word past the last one, that at which the roster does.
    pub fn word_begins(self, word: usize) -> usize {
        HEAD + WORD * word
    }

    /// The byte with the number of roster entries.
    pub fn roster_begins(self) -> usize {
        self.word_begins(self.tiles().unwrap_or(0))
    }

    /// The number of roster entries, if the file has it.
    pub fn entries(self) -> Option<usize> {
        self.bytes.get(self.roster_begins()).copied().map(usize::from)
    }

    /// The byte at which a roster entry begins; of the entry past the last one, that at which the file should end.
    pub fn entry_begins(self, entry: usize) -> usize {
        self.roster_begins() + 1 + ENTRY * entry
    }

    /// The roster entries that are there: accounts, each with its pixels.
    pub fn roster(self) -> Vec<(Account, u32)> {
        let bytes = self.bytes.get(self.entry_begins(0)..).unwrap_or_default();
        let entries = bytes.chunks_exact(ENTRY).map(|entry| match *entry {
            [account, a, b, c, d] => (Account(account), u32::from_be_bytes([a, b, c, d])),
            _ => unreachable!("chunks of {ENTRY} bytes"),
        });
        entries.take(self.entries().unwrap_or(0)).collect()
    }

    /// The pixels that are somebody's, by the roster.
    pub fn held(self) -> u32 {
        self.roster().into_iter().map(|(_, pixels)| pixels).sum()
    }
}
