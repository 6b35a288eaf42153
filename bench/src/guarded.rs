//! Lent slices between guards.

/// What can be lent between guards.
pub trait Guard: Copy + PartialEq {
    const GUARD: Self;
    /// How many stand on either side.
    const GUARDS: usize;
}

/// No end of an interval, and no number that a call would write by chance. As
/// many as the longest box has numbers.
impl Guard for i64 {
    const GUARD: i64 = 0x6b69_6677_616c_6562;
    const GUARDS: usize = 64;
}

/// No byte of a sheet. As many as a lent sheet has.
impl Guard for u8 {
    const GUARD: u8 = 0xb7;
    const GUARDS: usize = 2_048;
}

/// A lent slice between two rows of guards, which no call may touch.
#[derive(Clone, Debug, PartialEq, Eq)]
pub struct Guarded<T> {
    all: Vec<T>,
}

impl<T: Guard> Guarded<T> {
    pub fn new(lent: &[T]) -> Guarded<T> {
        let mut all = vec![T::GUARD; lent.len() + 2 * T::GUARDS];
        all[T::GUARDS..][..lent.len()].copy_from_slice(lent);
        Guarded { all }
    }

    pub fn lent(&mut self) -> &mut [T] {
        let end = self.all.len() - T::GUARDS;
        &mut self.all[T::GUARDS..end]
    }

    /// The lent slice as it is now.
    pub fn inside(&self) -> &[T] {
        let end = self.all.len() - T::GUARDS;
        &self.all[T::GUARDS..end]
    }

    /// False if a call wrote past either end of its slice.
    pub fn is_intact(&self) -> bool {
        let (before, rest) = self.all.split_at(T::GUARDS);
        let after = &rest[rest.len() - T::GUARDS..];
        before.iter().chain(after).all(|guard| *guard == T::GUARD)
    }
}

#[cfg(test)]
mod tests {
    use super::*;

    fn assert_seen<T: Guard + Default + std::fmt::Debug>(lent: [T; 2]) {
        let right = Guarded::new(&lent);
        assert!(right.is_intact());
        let guards = T::GUARDS;
        for touched in [0, guards - 1, guards + 2, 2 * guards + 1] {
            let mut wrong = right.clone();
            wrong.all[touched] = T::default();
            assert!(!wrong.is_intact());
            assert_eq!(wrong.inside(), lent);
            assert_ne!(wrong, right);
        }
    }

    #[test]
    fn writing_past_a_slice_is_seen() {
        assert_seen([5_i64, 6]);
        assert_seen([5_u8, 6]);
    }
}
