//! The balance of a system: B = I − A with the same right side.

use crate::reference::{Interval, System, SCALE};

/// Exact, also where the result lies out of the range.
pub fn balance_of(system: &System) -> System {
    let mut balance = system.clone();
    for i in 1..=system.size() {
        for j in 1..=system.size() {
            let identity = if i == j { SCALE as i64 } else { 0 };
            let Interval { lo, hi } = system.a(i, j);
            balance.set_a(i, j, Interval::new(identity - hi, identity - lo));
        }
    }
    balance
}

#[cfg(test)]
mod tests {
    use super::*;
    use crate::reference::{calculate, Call};
    use crate::samples::three_equations;

    #[test]
    fn a_system_and_its_balance_are_solved_alike() {
        for system in three_equations() {
            let direct = calculate(Call::Eliminate, system.clone());
            let balance = calculate(Call::EliminateBalance, balance_of(&system));
            assert_eq!(direct.end, balance.end);
            assert_eq!(direct.copy, balance.copy);
        }
    }
}
