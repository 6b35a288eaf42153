//! What the command line of `differential` asks for.

pub const USAGE: &str =
    "usage: differential [pairs=N] [systems=N] [starts=N] [sweeps=N] [boxes=N] [texts=N] \
     [searches=N] [inside=N] [symmetric=N] [operations=N] [transfers=N] \
     [programs=N] [seed=N]";

#[derive(Clone, Copy, Debug, PartialEq, Eq)]
pub struct Plan {
    /// Random pairs for each single step.
    pub pairs: u64,
    /// Random systems over both elimination calls.
    pub systems: u64,
    /// Start boxes, faulty ones first.
    pub starts: u64,
    /// Random sweep calls, in lists of one kind or of both.
    pub sweeps: u64,
    /// Random pairs of boxes to choose from.
    pub boxes: u64,
    /// Random texts for the report call.
    pub texts: u64,
    /// Searches for a byte: at every place alone, then random ones.
    pub searches: u64,
    /// Calls held against the calculation of before document 02's A4.
    pub inside: u64,
    /// Symmetric sweep calls held against ordinary ones.
    pub symmetric: u64,
    /// Operations on half rows, in lists.
    pub operations: u64,
    /// Calls from a list of transfers, faulty ones first.
    pub transfers: u64,
    /// Texts for the program, edge texts and random ones.
    pub programs: usize,
    pub seed: u64,
}

impl Plan {
    pub const DEFAULT: Plan = Plan {
        pairs: 5_000_000,
        systems: 1_000_000,
        starts: 1_000_000,
        sweeps: 2_000_000,
        boxes: 1_000_000,
        texts: 300_000,
        searches: 2_000_000,
        inside: 1_000_000,
        symmetric: 1_000_000,
        operations: 1_000_000,
        transfers: 1_000_000,
        programs: 2_000,
        seed: 1,
    };

    /// Nothing if an argument cannot be read.
    pub fn read(arguments: impl Iterator<Item = String>) -> Option<Plan> {
        let mut plan = Plan::DEFAULT;
        for argument in arguments {
            match argument.split_once('=')? {
                ("pairs", number) => plan.pairs = number.parse().ok()?,
                ("systems", number) => plan.systems = number.parse().ok()?,
                ("starts", number) => plan.starts = number.parse().ok()?,
                ("sweeps", number) => plan.sweeps = number.parse().ok()?,
                ("boxes", number) => plan.boxes = number.parse().ok()?,
                ("texts", number) => plan.texts = number.parse().ok()?,
                ("searches", number) => plan.searches = number.parse().ok()?,
                ("inside", number) => plan.inside = number.parse().ok()?,
                ("symmetric", number) => plan.symmetric = number.parse().ok()?,
                ("operations", number) => plan.operations = number.parse().ok()?,
                ("transfers", number) => plan.transfers = number.parse().ok()?,
                ("programs", number) => plan.programs = number.parse().ok()?,
                ("seed", number) => plan.seed = number.parse().ok()?,
                _ => return None,
            }
        }
        Some(plan)
    }
}

#[cfg(test)]
mod tests {
    use super::*;

    fn read(arguments: &str) -> Option<Plan> {
        Plan::read(arguments.split_whitespace().map(str::to_string))
    }

    #[test]
    fn arguments_come_in_any_sequence() {
        let plan = read(
            "pairs=2 systems=3 sweeps=5 texts=6 programs=7 seed=4 starts=8 boxes=9 searches=10 \
             inside=11 symmetric=12 operations=13 transfers=14",
        );
        assert_eq!(
            read(
                "transfers=14 operations=13 symmetric=12 inside=11 searches=10 boxes=9 starts=8 seed=4 \
                 programs=7 texts=6 sweeps=5 systems=3 pairs=2"
            ),
            plan
        );
        let plan = plan.unwrap();
        assert_eq!([plan.pairs, plan.systems, plan.sweeps], [2, 3, 5]);
        assert_eq!([plan.texts, plan.programs as u64, plan.seed], [6, 7, 4]);
        assert_eq!([plan.starts, plan.boxes, plan.searches], [8, 9, 10]);
        assert_eq!([plan.inside, plan.symmetric, plan.operations], [11, 12, 13]);
        assert_eq!(plan.transfers, 14);
        assert_eq!(read(""), Some(Plan::DEFAULT));
    }

    #[test]
    fn other_arguments_are_refused() {
        for argument in ["2", "pairs", "pairs=", "pairs=-1", "sweep=3"] {
            assert_eq!(read(argument), None, "{argument}");
        }
    }
}
