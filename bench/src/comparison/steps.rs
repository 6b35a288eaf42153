//! Comparing single steps.

use super::{Tally, Trial};
use crate::reference::{Interval, Operation};
use crate::side::{Reference, Side};

/// A step with its operands.
#[derive(Clone, Copy, Debug, PartialEq, Eq)]
pub struct Pair {
    pub operation: Operation,
    pub a: Interval,
    pub b: Interval,
}

impl Trial for Pair {
    fn compare(&self, side: &impl Side, tally: &mut Tally) -> Result<(), String> {
        let Pair { operation, a, b } = *self;
        let expected = Reference.step(operation, a, b);
        let given = side.step(operation, a, b);
        if expected != given {
            let name = operation.name();
            let operands = format!("{}:{} and {}:{}", a.lo, a.hi, b.lo, b.hi);
            return Err(format!(
                "difference in {name} of {operands}; number, place, lower end, upper end:\n  \
                 reference: {expected:?}\n  archive:   {given:?}"
            ));
        }
        tally.count(expected.0);
        match expected.0 {
            0 => tally.reach("0", 0),
            3 => tally.reach("3 for operand", expected.1 as usize),
            5 => tally.reach("5", 0),
            _ => tally.reach("6", 0),
        }
        Ok(())
    }
}
