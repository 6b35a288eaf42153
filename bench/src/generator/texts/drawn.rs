//! Random texts.

use super::accidents::{slip, spoil};
use super::draft::{is_writable, Draft, GREATEST};
use super::spellings::WELL_FORMED;
use super::{names, sheets, slow};
use crate::case::Case;
use crate::generator::sweeps::balances;
use crate::generator::{random_cases_up_to, Random};
use crate::reference::{Call, Interval, System, MOST_EQUATIONS, SHEET_LENGTH};
use crate::text_case::TextCase;

struct Texts<C> {
    random: Random,
    /// Systems for the elimination.
    cases: C,
    most: usize,
}

/// An endless row of texts, always the same for the same seed.
pub fn random_texts(seed: u64) -> impl Iterator<Item = TextCase> {
    random_texts_up_to(MOST_EQUATIONS, seed)
}

/// The same with at most so many vats, which takes far less time.
pub fn random_texts_up_to(most: usize, seed: u64) -> impl Iterator<Item = TextCase> {
    let cases = random_cases_up_to(most, Call::EliminateBalance, seed);
    Texts {
        random: Random::new(seed),
        cases: cases.filter(is_writable),
        most,
    }
}

impl<C: Iterator<Item = Case>> Iterator for Texts<C> {
    type Item = TextCase;

    fn next(&mut self) -> Option<TextCase> {
        let case = self.case()?;
        let random = &mut self.random;
        let mut draft = Draft::new(names::drawn(random, case.n), &case);
        for _ in 0..random.pick(&[0, 0, 0, 0, 0, 1, 1, 2]) {
            slip(random, &mut draft);
        }
        let mut text = draft.written();
        if random.once_in(5) {
            spoil(random, &mut text);
        }
        let length = if random.once_in(50) {
            random.pick(&sheets::FAULTY_LENGTHS)
        } else {
            SHEET_LENGTH
        };
        let out = sheets::random_content(random, length);
        Some(TextCase { text, out })
    }
}

impl<C: Iterator<Item = Case>> Texts<C> {
    fn case(&mut self) -> Option<Case> {
        match self.random.below(16) {
            0 if self.random.once_in(2) => Some(self.slow()),
            0 => Some(self.low_share()),
            1 | 2 => {
                let n = self.random.between(1, self.most.min(6) as i64) as usize;
                Some(Case::new(&balances::any(&mut self.random, n)))
            }
            3 => Some(self.free()),
            _ => self.cases.next(),
        }
    }

    /// Settled just before the last allowed sweep, by it, or not by then.
    fn slow(&mut self) -> Case {
        let random = &mut self.random;
        let n = if random.once_in(2) {
            random.between(2, self.most.max(2) as i64)
        } else {
            2
        };
        let first = random.between(1, n);
        let second = (first - 1 + random.between(1, n - 1)) % n + 1;
        let (share, _) = random.pick(&slow::SHARES);
        slow::balance(n as usize, [first as usize, second as usize], share)
    }

    /// One diagonal share so low that 1 less it may leave the range.
    fn low_share(&mut self) -> Case {
        let random = &mut self.random;
        let n = random.between(1, self.most as i64) as usize;
        let vat = random.between(1, n as i64) as usize;
        let lower = -1_999_000_000 - random.pick(&[0, 1, 1, 999_999, 1_000_000]);
        let mut balance = System::noughts(n);
        balance.set_a(vat, vat, Interval::new(lower, 0));
        Case::new(&balance)
    }

    /// Ends of all lengths, mostly out of sequence or out of the range.
    fn free(&mut self) -> Case {
        let random = &mut self.random;
        let n = random.between(1, self.most.min(4) as i64) as usize;
        let mut case = Case::new(&System::noughts(n));
        for number in case.matrix.iter_mut().chain(&mut case.right_side) {
            *number = if random.once_in(2) {
                random.pick(&WELL_FORMED)
            } else {
                let magnitude = random.magnitude(GREATEST as i64);
                random.signed(magnitude)
            };
        }
        case
    }
}
