//! The printed answers of tables on both sides of each edge of the index figure: a head that is 0 or none, a negative order or none.

use crate::chance::Chance;
use crate::oracle::Truth;
use crate::table::Table;
use crate::tables::filled;

/// Small orders from 0 or 1 up, so that heads are often 0; in one table of two some place is then negative.
pub fn random_table(chance: &mut Chance, n: usize) -> Table {
    let low = chance.one_of(&[0, 0, 0, 1]);
    let width = chance.one_of(&[0, 1, 2, 3]);
    let mut table = filled(chance, n, 40, 100, low, low + width);
    if chance.once_in(1, 2) {
        let (i, j) = (chance.below(n), chance.below(n));
        table.set(i, j, chance.one_of(&[-1, -1, -2, -100]));
    }
    table
}

/// Has the table a negative order, and is some head of its answer 0? Nothing where it has no answer.
pub fn side(truth: &Truth) -> Option<(bool, bool)> {
    let solved = truth.solved.as_ref()?;
    Some((truth.table.some_negative(), truth.table.some_head_zero(&solved.additions)))
}
