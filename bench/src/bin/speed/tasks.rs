//! What is done by both sides.

use crate::balances::{
    dipped, far, heavy_row, listed, longest, mixed, noughts, shares, slow, slow_noughts, slowly,
    thinned, wide, with_wide_box,
};
use kifwaleb::{HalfRows, LOWEST};
use kifwaleb_bench::archive::Archive;
use kifwaleb_bench::case::{Case, Slices};
use kifwaleb_bench::generator::{long_named_text, short_named_text};
use kifwaleb_bench::plain;
use kifwaleb_bench::reference::Pass::{There, ThereAndBack};
use kifwaleb_bench::reference::{
    Call, ListCall, Outcome, Pass, DONE, FAULTY_ENDS, MOST_SWEEPS, SHEET_LENGTH, SPENT,
};
use kifwaleb_bench::side::Side as _;
use kifwaleb_bench::sweep_list::SweepCall;
use std::hint::black_box;

#[derive(Clone, Copy)]
pub enum Side {
    /// The archive.
    Ours,
    /// Everyday Rust, or another of the archive's calls: ordinary sweeps against symmetric
    /// ones, these against half passes, a half pass against a narrowing, and the square
    /// against a list.
    Theirs,
}

/// What a task is called, and how it is made for so many vats.
pub type Kind = (&'static str, fn(usize) -> Task);

pub const KINDS: [Kind; 40] = [
    ("eliminate-shares", |n| Task::Eliminate(shares(n))),
    ("eliminate-mixed", |n| Task::Eliminate(mixed(n))),
    ("start-shares", |n| Task::Start(shares(n))),
    ("start-mixed", |n| Task::Start(mixed(n))),
    ("start-columns", |n| Task::Start(heavy_row(n))),
    ("sweep-shares", |n| {
        Task::sweep(There, with_wide_box(shares(n)), 1)
    }),
    ("sweep-mixed", |n| {
        Task::sweep(There, with_wide_box(mixed(n)), 1)
    }),
    ("slow-noughts", |n| {
        Task::sweep(There, slow_noughts(n), MOST_SWEEPS)
    }),
    ("slow-dense", |n| {
        Task::sweep(There, slow(shares(n - 1)), MOST_SWEEPS)
    }),
    ("slow-mixed", |n| {
        Task::sweep(There, slow(mixed(n - 1)), MOST_SWEEPS)
    }),
    ("symmetric-shares", |n| {
        Task::sweep(ThereAndBack, with_wide_box(shares(n)), 1)
    }),
    ("symmetric-mixed", |n| {
        Task::sweep(ThereAndBack, with_wide_box(mixed(n)), 1)
    }),
    ("symmetric-slow", |n| {
        Task::sweep(ThereAndBack, slow(mixed(n - 1)), MOST_SWEEPS)
    }),
    ("pass-dense", |n| Task::passes(slow(shares(n - 1)), 1)),
    ("pass-mixed", |n| Task::passes(slow(mixed(n - 1)), 1)),
    ("passes-dense", |n| Task::passes(slow(shares(n - 1)), 100)),
    ("passes-mixed", |n| Task::passes(slow(mixed(n - 1)), 100)),
    ("half-dense", |n| Task::halves(slow(shares(n - 1)))),
    ("half-mixed", |n| Task::halves(slow(mixed(n - 1)))),
    ("narrow-mixed", |n| {
        Task::Narrow([(); 2].map(|()| loaded(&with_wide_box(mixed(n)))))
    }),
    ("list-eliminate", |n| {
        Task::few(thinned(shares(n), FEW), ListCall::Eliminate)
    }),
    ("list-sweep", |n| {
        Task::few(with_wide_box(thinned(shares(n), FEW)), ONE_SWEEP)
    }),
    ("list-sweeps", |n| {
        Task::few(slow(thinned(shares(n - 1), FEW - 1)), SWEEPS)
    }),
    ("list-mixed", |n| {
        Task::few(with_wide_box(thinned(mixed(n), FEW)), ONE_SWEEP)
    }),
    ("list-mixeds", |n| {
        Task::few(slow(thinned(mixed(n - 1), FEW - 1)), SWEEPS)
    }),
    ("full-eliminate", |n| {
        Task::full(shares(n), ListCall::Eliminate)
    }),
    ("full-sweep", |n| {
        Task::full(with_wide_box(shares(n)), ONE_SWEEP)
    }),
    ("full-sweeps", |n| Task::full(slow(shares(n - 1)), SWEEPS)),
    ("full-mixed", |n| {
        Task::full(with_wide_box(mixed(n)), ONE_SWEEP)
    }),
    ("full-mixeds", |n| Task::full(slow(mixed(n - 1)), SWEEPS)),
    ("full-wide", |n| Task::full(wide(n), ONE_SWEEP)),
    ("full-wides", |n| Task::full(slowly(wide(n)), SWEEPS)),
    ("full-far", |n| Task::full(far(n), ONE_SWEEP)),
    ("full-fars", |n| Task::full(slowly(far(n)), SWEEPS)),
    ("full-dip", |n| {
        Task::full(dipped(with_wide_box(shares(n))), ONE_SWEEP)
    }),
    ("full-fardip", |n| Task::full(dipped(far(n)), ONE_SWEEP)),
    ("read-longest", |n| Task::report(&crossed(longest(n)))),
    ("read-noughts", |n| {
        Task::on_text(short_named_text(&crossed(noughts(n))))
    }),
    ("sheet-longest", |n| Task::report(&longest(n))),
    ("sheet-shares", |n| Task::report(&shares(n))),
];

/// One call with its arguments, to be repeated.
pub enum Task {
    /// From B and b.
    Eliminate(Case),
    Start(Case),
    /// The box is set back to `start` before each call.
    Sweep {
        lent: Case,
        start: Vec<i64>,
        call: SweepCall,
        /// Theirs are the archive's ordinary sweeps, twice as many.
        twice: bool,
    },
    /// Always from what was loaded, and lent with it.
    Halves(Case, HalfRows),
    /// As loaded, and as the calls of a round leave it.
    Narrow([HalfRows; 2]),
    /// A list, and the square that it stands for with the start box.
    Listed(Case, Case, ListCall),
    Report {
        text: Vec<u8>,
        out: Vec<u8>,
    },
}

/// Of a task with half rows.
const PASSES: usize = 100;

const ONE_SWEEP: ListCall = ListCall::Sweep(There, 1);
const SWEEPS: ListCall = ListCall::Sweep(There, 100);

/// The transfers of a list that is not full. A square with fewer shares is listed whole.
const FEW: usize = 64;

fn loaded(lent: &Case) -> HalfRows {
    let rows = HalfRows::load(lent.n, &lent.matrix, &lent.right_side, &lent.bounds);
    rows.expect("every task is a balance")
}

impl Task {
    fn halves(lent: Case) -> Task {
        let rows = loaded(&lent);
        Task::Halves(lent, rows)
    }

    fn few(square: Case, call: ListCall) -> Task {
        let whole = square.n * square.n <= FEW;
        Task::Listed(listed(&square, whole), square, call)
    }

    fn full(square: Case, call: ListCall) -> Task {
        Task::Listed(listed(&square, true), square, call)
    }

    fn sweep(pass: Pass, lent: Case, allowed: usize) -> Task {
        Task::swept(lent, SweepCall { pass, allowed }, false)
    }

    /// Passes there and back against as many sweeps as they have halves.
    fn passes(lent: Case, allowed: usize) -> Task {
        let pass = ThereAndBack;
        Task::swept(lent, SweepCall { pass, allowed }, true)
    }

    fn swept(lent: Case, call: SweepCall, twice: bool) -> Task {
        Task::Sweep {
            start: lent.bounds.clone(),
            lent,
            call,
            twice,
        }
    }

    fn report(case: &Case) -> Task {
        Task::on_text(long_named_text(case))
    }

    fn on_text(text: Vec<u8>) -> Task {
        let out = vec![0; SHEET_LENGTH];
        Task::Report { text, out }
    }

    pub fn run(&mut self, side: Side, times: usize) {
        if let Task::Narrow([loaded, rows]) = self {
            *rows = loaded.clone();
        }
        for _ in 0..times {
            black_box(self.run_once(side));
        }
    }

    fn run_once(&mut self, side: Side) -> Outcome {
        match self {
            Task::Eliminate(lent) => side.eliminate(lent.n, black_box(lent).slices()),
            Task::Start(lent) => side.start_box(lent.n, black_box(lent).slices()),
            Task::Sweep {
                lent,
                start,
                call: SweepCall { pass, allowed },
                twice,
            } => {
                lent.bounds.copy_from_slice(black_box(start));
                match side {
                    Side::Theirs if *twice => {
                        Archive.sweep(There, lent.n, lent.slices(), 2 * *allowed)
                    }
                    side => side.sweep(*pass, lent.n, lent.slices(), *allowed),
                }
            }
            Task::Halves(lent, loaded) => side.passes(lent, black_box(loaded)),
            Task::Narrow([_, rows]) => side.narrow(rows),
            Task::Listed(lent, square, call) => side.listed(lent, black_box(square), *call),
            Task::Report { text, out } => side.report(black_box(text), out),
        }
    }

    /// Both sides must do the same, and what the case is meant to show.
    pub fn assert_same_answers(&mut self) {
        let [ours, mut theirs] = [Side::Ours, Side::Theirs].map(|side| {
            let outcome = self.run_once(side);
            (outcome, self.left_behind())
        });
        if let Task::Sweep { twice: true, .. } = self {
            theirs.0.count /= 2;
        }
        assert!(ours == theirs, "the two sides answer differently");
        let (number, count) = (ours.0.number, ours.0.count);
        let spent = |sweeps: usize| assert_eq!((number, count), (SPENT, sweeps as u64));
        match self {
            Task::Sweep { call, .. } => spent(call.allowed),
            Task::Listed(_, _, ListCall::Sweep(_, allowed)) => spent(*allowed),
            Task::Halves(..) => spent(PASSES),
            // A text that is only read is refused for its first interval.
            Task::Report { .. } => assert!(number == DONE || number == FAULTY_ENDS),
            Task::Eliminate(_) | Task::Start(_) | Task::Narrow(_) | Task::Listed(..) => {
                assert_eq!(number, DONE);
            }
        }
    }

    /// The box or the sheet as the last call left it, which is then undone. A narrowing and
    /// a half pass do not leave the same.
    fn left_behind(&mut self) -> Vec<u8> {
        match self {
            Task::Narrow(_) => Vec::new(),
            Task::Eliminate(lent)
            | Task::Start(lent)
            | Task::Sweep { lent, .. }
            | Task::Listed(lent, ..)
            | Task::Halves(lent, _) => {
                let bounds = lent.bounds.iter().flat_map(|end| end.to_le_bytes());
                let left = bounds.collect();
                lent.bounds.fill(0);
                left
            }
            Task::Report { out, .. } => std::mem::replace(out, vec![0; SHEET_LENGTH]),
        }
    }
}

/// The first interval has its ends out of sequence: the text is read, and the
/// elimination refuses its numbers.
fn crossed(mut case: Case) -> Case {
    case.matrix[0] = case.matrix[1];
    case.matrix[1] -= 1;
    case
}

impl Side {
    fn eliminate(self, n: usize, lent: Slices) -> Outcome {
        match self {
            Side::Ours => Archive.eliminate(Call::EliminateBalance, n, lent),
            Side::Theirs => plain::eliminate_balance(n, lent.matrix, lent.right_side, lent.bounds),
        }
    }

    fn start_box(self, n: usize, lent: Slices) -> Outcome {
        match self {
            Side::Ours => Archive.start_box(n, lent),
            Side::Theirs => plain::start_box(n, lent.matrix, lent.right_side, lent.bounds),
        }
    }

    fn sweep(self, pass: Pass, n: usize, lent: Slices, allowed: usize) -> Outcome {
        match self {
            Side::Ours => Archive.sweep(pass, n, lent, allowed),
            Side::Theirs => {
                let (matrix, right_side, bounds) = (lent.matrix, lent.right_side, lent.bounds);
                plain::sweep(pass, n, matrix, right_side, bounds, allowed)
            }
        }
    }

    /// By halves, counted as the symmetric call counts them, and by that.
    fn passes(self, lent: &mut Case, loaded: &HalfRows) -> Outcome {
        lent.bounds.copy_from_slice(loaded.bounds());
        if let Side::Theirs = self {
            return Archive.sweep(ThereAndBack, lent.n, lent.slices(), PASSES);
        }
        let mut rows = loaded.clone();
        for _ in 0..PASSES {
            assert_eq!((rows.up(), rows.down()), (Ok(()), Ok(())));
        }
        lent.bounds.copy_from_slice(rows.bounds());
        Outcome::counted(SPENT, 0, PASSES as u64)
    }

    /// The last vat by a unit, up being due. Theirs is the half pass that is due; to be
    /// refused the other one takes next to no time.
    fn narrow(self, rows: &mut HalfRows) -> Outcome {
        let numbers = rows.bounds().len();
        let upper = rows.bounds()[numbers - 1] - 1;
        let done = match self {
            Side::Ours => rows.narrow(numbers / 2, LOWEST, upper),
            Side::Theirs => rows.up().or_else(|_| rows.down()),
        };
        assert_eq!(done, Ok(()));
        Outcome::DONE
    }

    /// Both leave their box with the list.
    fn listed(self, lent: &mut Case, square: &mut Case, call: ListCall) -> Outcome {
        let n = lent.n;
        lent.bounds.copy_from_slice(&square.bounds);
        let mut slices = lent.slices();
        if let Side::Ours = self {
            return Archive.transfers(call, n, slices);
        }
        slices.matrix = &mut square.matrix;
        match call {
            ListCall::Eliminate => Archive.eliminate(Call::EliminateBalance, n, slices),
            ListCall::Sweep(pass, allowed) => Archive.sweep(pass, n, slices, allowed),
        }
    }

    fn report(self, text: &mut [u8], out: &mut [u8]) -> Outcome {
        match self {
            Side::Ours => Archive.report(text, out),
            Side::Theirs => plain::report(text, out),
        }
    }
}

#[cfg(test)]
mod tests {
    use super::*;
    use kifwaleb_bench::reference::TRANSFER;

    #[test]
    fn both_sides_answer_alike() {
        for (_, task) in KINDS {
            for n in [4, 8, 16, 32] {
                task(n).assert_same_answers();
            }
        }
    }

    /// The text, how the call ended, and the sheet as text.
    fn reported(kind: &str) -> (Vec<u8>, Outcome, String) {
        let found = KINDS.iter().find(|(name, _)| *name == kind);
        let mut task = found.unwrap().1(32);
        let outcome = task.run_once(Side::Theirs);
        let Task::Report { text, out } = task else {
            panic!("{kind} is no report");
        };
        let sheet = out[..outcome.count as usize].to_vec();
        (text, outcome, String::from_utf8(sheet).unwrap())
    }

    /// 32 names of 16 bytes and 33 · 32 values of 23, each with the byte after.
    #[test]
    fn the_longest_text_is_read_and_has_a_sheet() {
        let longest = 32 * 17 + 33 * 32 * 24;
        let (text, outcome, _) = reported("read-longest");
        assert_eq!((text.len(), outcome), (longest, Outcome::new(3, 0)));
        let (text, _, sheet) = reported("sheet-longest");
        assert_eq!(text.len(), longest);
        assert!(sheet.ends_with("\nsettled 1\n"), "{sheet}");
    }

    /// 64 shares and 8 deliveries are not.
    #[test]
    fn most_values_are_noughts() {
        let (text, outcome, _) = reported("read-noughts");
        assert_eq!(outcome, Outcome::new(3, 0));
        assert!(text.starts_with(b"V1;V2;"));
        let fields = text.split(|byte| b";\n".contains(byte));
        let noughts = fields.filter(|field| *field == b"0:0").count();
        assert_eq!(noughts, 33 * 32 - 64 - 8);
    }

    #[test]
    fn lists_have_as_many_transfers_as_they_are_meant_to() {
        for (kind, task) in KINDS {
            let counts = [4, 8, 16, 32].map(|n| match task(n) {
                Task::Listed(lent, ..) => lent.matrix.len() / TRANSFER,
                _ => 0,
            });
            let few = kind.starts_with("list").then_some([16, 64, 64, 64]);
            let full = kind.starts_with("full").then_some([16, 64, 256, 1_024]);
            assert_eq!(counts, few.or(full).unwrap_or_default(), "{kind}");
        }
    }

    /// In all rows but the last.
    #[test]
    fn far_sums_do_not_fit_a_word() {
        for case in [4, 8, 16, 32].map(|n| slowly(far(n))) {
            let n = case.n;
            for row in case.matrix.chunks_exact(2 * n).take(n - 1) {
                let both = row.iter().zip(&case.bounds).skip(1).step_by(2);
                let sum: i128 = both.map(|(a, x)| i128::from(*a) * i128::from(*x)).sum();
                assert!(sum >> 63 > 0, "{n} vats");
            }
        }
    }

    #[test]
    fn the_shares_are_swept_more_than_once() {
        let (_, _, sheet) = reported("sheet-shares");
        assert!(sheet.ends_with("\nsettled 18\n"), "{sheet}");
    }
}
