//! The answer by trying every transversal, for small tables.

use crate::table::{Solved, Table};

/// Every complete transversal, in the order of its columns written for row 1, row 2 and so on.
pub fn transversals(table: &Table) -> Vec<Vec<usize>> {
    let mut all = Vec::new();
    extend(table, &mut Vec::new(), &mut all);
    all
}

fn extend(table: &Table, columns: &mut Vec<usize>, all: &mut Vec<Vec<usize>>) {
    let i = columns.len();
    if i == table.n {
        all.push(columns.clone());
        return;
    }
    for j in 0..table.n {
        if table.order(i, j).is_some() && !columns.contains(&j) {
            columns.push(j);
            extend(table, columns, all);
            columns.pop();
        }
    }
}

/// Does some complete transversal consist of column maxima?
pub fn is_canon(table: &Table, all: &[Vec<usize>], additions: &[u32]) -> bool {
    first_of_maxima(table, all, additions).is_some()
}

fn first_of_maxima<'a>(table: &Table, all: &'a [Vec<usize>], additions: &[u32]) -> Option<&'a Vec<usize>> {
    let heads = table.heads(additions)?;
    all.iter().find(|columns| columns.iter().enumerate().all(|(i, &j)| table.maximum(additions, &heads, i, j)))
}

/// The simplest canon and all that goes with it, or nothing where no complete transversal exists.
///
/// Additions are a canon when some transversal consists of column maxima under them, so the canons are those of all
/// transversals together, and the least in each row over all transversals is at most every canon. It is then checked
/// that it is a canon itself, and that the sum is the greatest of all.
pub fn solve(table: &Table, all: &[Vec<usize>]) -> Option<Solved> {
    let zeros = vec![0; table.n];
    let mut least: Option<Vec<u32>> = None;
    for additions in all.iter().filter_map(|columns| table.least_by(columns, &zeros)) {
        least = Some(match least {
            None => additions,
            Some(old) => old.iter().zip(&additions).map(|(&a, &b)| a.min(b)).collect(),
        });
    }
    let greatest = all.iter().filter_map(|columns| table.total(columns)).max()?;
    let additions = least.expect("a table with a transversal has a canon");
    let columns = first_of_maxima(table, all, &additions).expect("the least additions are a canon");
    let sum = table.total(columns).expect("a transversal has no absent place");
    assert_eq!(sum, greatest, "the sum of the stars is the greatest");
    let stars = columns.iter().map(|&j| j as u32 + 1).collect();
    let heads = table.heads(&additions)?;
    Some(Solved { additions, stars, heads, sum })
}

/// The simplest canon by trying all additions up to a limit, for the least tables: a check of `solve` itself.
pub fn simplest_by_search(table: &Table, all: &[Vec<usize>], limit: u32) -> Option<Vec<u32>> {
    let mut least: Option<Vec<u32>> = None;
    let mut additions = vec![0u32; table.n];
    loop {
        if is_canon(table, all, &additions) {
            least = Some(match least {
                None => additions.clone(),
                Some(old) => old.iter().zip(&additions).map(|(&a, &b)| a.min(b)).collect(),
            });
        }
        let Some(i) = additions.iter().position(|&v| v < limit) else { return least };
        additions[i] += 1;
        additions[..i].fill(0);
    }
}
