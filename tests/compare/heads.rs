//! The heads of columns, with the lowest row and the count: tables with many ties and with empty columns, and additions that make
//! ties and break them. Refusals come alone and several at once.

use crate::chance::Chance;
use crate::table::{Table, ABSENT};
use crate::tables::{filled, nudge, request, spoil};
use crate::wire::{Call, Request};

/// A request with a random table of n rows, in one case of four with something wrong besides the additions.
pub fn random_request(chance: &mut Chance, n: usize) -> Request {
    let table = tied_table(chance, n);
    let given = additions(chance, &table);
    let mut asked = request(chance, Call::ColumnHeads, &table, &given);
    if chance.once_in(1, 4) {
        spoil(chance, &mut asked);
    }
    asked
}

/// Orders from a narrow range, so that many rows hold a head, and in one table of two some columns with no order.
fn tied_table(chance: &mut Chance, n: usize) -> Table {
    let low = chance.one_of(&[-100, -3, -1, 0, 0, 97, 100]);
    let width = chance.one_of(&[0, 0, 1, 2, 3]);
    let mut table = filled(chance, n, 30, 100, low, (low + width).min(100));
    if chance.once_in(1, 2) {
        for j in 0..n {
            if chance.once_in(1, 3) {
                (0..n).for_each(|i| table.set(i, j, ABSENT as i64));
            }
        }
    }
    table
}

/// Zeros, small additions, such as let every row of one column hold its head, these with one row moved, additions up to the
/// limit, and one above it in some place.
fn additions(chance: &mut Chance, table: &Table) -> Vec<u32> {
    let n = table.n;
    match chance.below(7) {
        0 => vec![0; n],
        1 => (0..n).map(|_| chance.between(0, 3) as u32).collect(),
        2 => levelled(chance, table),
        3 => {
            let mut given = levelled(chance, table);
            nudge(chance, &mut given);
            given
        }
        4 => (0..n).map(|_| chance.between(9_998, 10_000) as u32).collect(),
        5 => (0..n).map(|_| chance.between(0, 10_000) as u32).collect(),
        _ => {
            let mut given = vec![chance.one_of(&[0, 10_000]); n];
            let inside = chance.below(n);
            given[chance.one_of(&[0, n - 1, inside])] = chance.one_of(&[10_001, 10_001, 65_536, u32::MAX]);
            given
        }
    }
}

/// The additions under which all present orders of some column are the same.
fn levelled(chance: &mut Chance, table: &Table) -> Vec<u32> {
    let j = chance.below(table.n);
    let Some(head) = table.head(&vec![0; table.n], j) else { return vec![0; table.n] };
    (0..table.n).map(|i| table.order(i, j).map_or(0, |order| (head - order) as u32)).collect()
}
