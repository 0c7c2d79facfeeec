//! Storage lent to the library, and short prints of slices.

use std::fmt::Debug;

/// A slice that prints shortly.
pub struct Brief<'a, T>(pub &'a [T]);

impl<T: Debug> Debug for Brief<'_, T> {
    fn fmt(&self, f: &mut std::fmt::Formatter) -> std::fmt::Result {
        const MOST: usize = 300;
        write!(f, "{} {:?}", self.0.len(), &self.0[..self.0.len().min(MOST)])?;
        f.write_str(if self.0.len() > MOST { " and more" } else { "" })
    }
}

/// What a guard is filled with.
pub trait Guard: Copy + PartialEq + Debug {
    const GUARD: Self;
}

impl Guard for u32 {
    const GUARD: u32 = 0xa5c3_961e;
}

impl Guard for u8 {
    const GUARD: u8 = 0xa5;
}

/// Lent storage, with a guard on either side that must not have changed at its end.
pub struct Lent<T: Guard> {
    all: Vec<T>,
}

const GUARDS: usize = 4;

impl<T: Guard> Lent<T> {
    pub fn new(items: &[T]) -> Lent<T> {
        let guard = [T::GUARD; GUARDS];
        Lent { all: [&guard, items, &guard].concat() }
    }

    pub fn must_be(&self, call: &str, given: &dyn Debug, expected: &[T]) {
        let got = self.as_ref();
        assert_eq!(got.len(), expected.len(), "{call}: the length of the storage");
        if let Some(at) = (0..expected.len()).find(|&at| got[at] != expected[at]) {
            let show = |items: &[T]| format!("{:?}", &items[at.saturating_sub(4)..items.len().min(at + 8)]);
            panic!(
                "{call}: storage differs at {at}\n  library {}\n  plain   {}\n  given {given:?}",
                show(got),
                show(expected)
            );
        }
    }
}

impl<T: Guard> Drop for Lent<T> {
    fn drop(&mut self) {
        let mut guards = self.all[..GUARDS].iter().chain(&self.all[self.all.len() - GUARDS..]);
        let kept = guards.all(|&item| item == T::GUARD);
        assert!(kept || std::thread::panicking(), "a call wrote outside the lent storage {:?}", Brief(&self.all));
    }
}

impl<T: Guard> AsRef<[T]> for Lent<T> {
    fn as_ref(&self) -> &[T] {
        &self.all[GUARDS..self.all.len() - GUARDS]
    }
}

impl<T: Guard> AsMut<[T]> for Lent<T> {
    fn as_mut(&mut self) -> &mut [T] {
        let end = self.all.len() - GUARDS;
        &mut self.all[GUARDS..end]
    }
}
