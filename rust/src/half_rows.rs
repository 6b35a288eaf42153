//! The pass there and back by halves, with sums kept in between.

use crate::raw::{self, KifwalebOutcome, HALF_BOX, HALF_LENGTH};
use crate::{Outcome, Refusal};

/// Bounds on the solutions of x = B·x + b that are tightened by half passes, up from vat 1
/// to n and down from n to 1 in turn, and by weighing single vats before either.
///
/// For each vat the exact sums left and right of the diagonal are kept from one half pass
/// to the next, so that these multiply about half as much as a pass of
/// [`symmetric_sweep`](crate::symmetric_sweep). As long as no vat is narrowed, `up` and
/// `down` k times leave the bounds that it leaves with k allowed. Whatever is refused
/// changes nothing.
///
/// ```
/// use kifwaleb::{HalfRows, Refusal};
/// let shares = [0, 0, 0, 500_000, 500_000, 500_000, 0, 0];
/// let deliveries = [3_000_000, 3_000_000, 0, 0];
/// let start = [0, 10_000_000, 0, 10_000_000];
/// let mut rows = HalfRows::load(2, &shares, &deliveries, &start)?;
/// rows.up()?;
/// assert_eq!(rows.bounds(), [3_000_000, 8_000_000, 1_500_000, 4_000_000]);
/// rows.down()?;
/// assert_eq!(rows.bounds(), [3_000_000, 5_000_000, 1_500_000, 4_000_000]);
/// rows.narrow(2, 1_000_000, 1_900_000)?;
/// rows.up()?;
/// assert_eq!(rows.bounds(), [3_000_000, 3_950_000, 1_500_000, 1_900_000]);
/// # Ok::<(), Refusal>(())
/// ```
#[derive(Clone, Debug)]
pub struct HalfRows {
    n: usize,
    state: Box<[i64; HALF_LENGTH]>,
}

impl HalfRows {
    /// Takes n, B, b and a start box over, lent as for [`sweep`](crate::sweep). The half
    /// pass up is due.
    ///
    /// ```
    /// use kifwaleb::{HalfRows, Refusal};
    /// let rows = HalfRows::load(1, &[0, 0], &[5, 6], &[0, 9])?;
    /// assert_eq!(rows.bounds(), [0, 9]);
    /// let refused = HalfRows::load(1, &[0, 0], &[6, 5], &[0, 9]);
    /// assert_eq!(refused.err(), Some(Refusal::Ends(1)));
    /// # Ok::<(), Refusal>(())
    /// ```
    pub fn load(
        n: usize,
        b_matrix: &[i64],
        b: &[i64],
        bounds: &[i64],
    ) -> Result<HalfRows, Refusal> {
        let state = Box::new([0; HALF_LENGTH]);
        let mut rows = HalfRows { n, state };
        rows.reload(n, b_matrix, b, bounds)?;
        Ok(rows)
    }

    /// Replaces everything, as by another [`load`](HalfRows::load), but in the same memory.
    ///
    /// ```
    /// use kifwaleb::{HalfRows, Refusal};
    /// let mut rows = HalfRows::load(1, &[0, 0], &[5, 6], &[0, 9])?;
    /// rows.up()?;
    /// assert_eq!(rows.reload(0, &[], &[], &[]), Err(Refusal::Size));
    /// assert_eq!(rows.bounds(), [5, 6]);
    /// rows.reload(2, &[0; 8], &[1; 4], &[0, 7, 0, 8])?;
    /// assert_eq!(rows.bounds(), [0, 7, 0, 8]);
    /// # Ok::<(), Refusal>(())
    /// ```
    pub fn reload(
        &mut self,
        n: usize,
        b_matrix: &[i64],
        b: &[i64],
        bounds: &[i64],
    ) -> Result<(), Refusal> {
        let state = self.state.as_mut_ptr();
        let [b_matrix, b, bounds] = [b_matrix, b, bounds].map(|s| (s.as_ptr(), s.len()));
        // SAFETY: each pointer comes with the length of its slice, no other shares memory
        // with the state, and any numbers are accepted.
        done(unsafe {
            raw::kifwaleb_half_load(
                state,
                HALF_LENGTH,
                n,
                b_matrix.0,
                b_matrix.1,
                b.0,
                b.1,
                bounds.0,
                bounds.1,
            )
        })?;
        self.n = n;
        Ok(())
    }

    /// The half pass from vat 1 to n. [`Refusal::Empty`] leaves it due.
    ///
    /// ```
    /// use kifwaleb::{HalfRows, Refusal};
    /// let mut rows = HalfRows::load(1, &[0, 0], &[5, 6], &[0, 9])?;
    /// rows.up()?;
    /// assert_eq!(rows.bounds(), [5, 6]);
    /// assert_eq!(rows.up(), Err(Refusal::NotDue));
    /// # Ok::<(), Refusal>(())
    /// ```
    pub fn up(&mut self) -> Result<(), Refusal> {
        // SAFETY: the pointer comes with the length of the state; so below.
        done(unsafe { raw::kifwaleb_half_up(self.state.as_mut_ptr(), HALF_LENGTH) })
    }

    /// The half pass from vat n to 1. [`Refusal::Empty`] leaves it due.
    ///
    /// ```
    /// use kifwaleb::{HalfRows, Refusal};
    /// let mut rows = HalfRows::load(1, &[500_000; 2], &[0, 0], &[0, 8])?;
    /// assert_eq!(rows.down(), Err(Refusal::NotDue));
    /// rows.up()?;
    /// rows.down()?;
    /// assert_eq!(rows.bounds(), [0, 2]);
    /// # Ok::<(), Refusal>(())
    /// ```
    pub fn down(&mut self) -> Result<(), Refusal> {
        done(unsafe { raw::kifwaleb_half_down(self.state.as_mut_ptr(), HALF_LENGTH) })
    }

    /// Narrows a vat, counted from 1, to what its bounds have in common with a weighed
    /// interval. The half pass that is due stays due.
    ///
    /// ```
    /// use kifwaleb::{HalfRows, Refusal};
    /// let mut rows = HalfRows::load(1, &[0, 0], &[5, 6], &[0, 9])?;
    /// rows.narrow(1, 3, 12)?;
    /// assert_eq!(rows.bounds(), [3, 9]);
    /// assert_eq!(rows.narrow(1, 10, 12), Err(Refusal::Empty(1)));
    /// assert_eq!(rows.narrow(2, 3, 12), Err(Refusal::NoVat));
    /// # Ok::<(), Refusal>(())
    /// ```
    pub fn narrow(&mut self, vat: usize, lo: i64, hi: i64) -> Result<(), Refusal> {
        let state = self.state.as_mut_ptr();
        done(unsafe { raw::kifwaleb_half_narrow(state, HALF_LENGTH, vat, lo, hi) })
    }

    /// The present bounds, 2·n numbers.
    ///
    /// ```
    /// use kifwaleb::HalfRows;
    /// let rows = HalfRows::load(2, &[0; 8], &[0; 4], &[0, 7, 0, 8]);
    /// assert_eq!(rows.unwrap().bounds(), [0, 7, 0, 8]);
    /// ```
    pub fn bounds(&self) -> &[i64] {
        &self.state[HALF_BOX..][..2 * self.n]
    }
}

/// Nothing is counted here, and so nothing spent.
fn done(given: KifwalebOutcome) -> Result<(), Refusal> {
    match given.into() {
        Outcome::Done => Ok(()),
        Outcome::Refused(refusal) => Err(refusal),
        Outcome::Spent => panic!("the archive returned {} on half rows", given.number),
    }
}
