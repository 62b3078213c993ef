//! An answer checked by what it must show, for tables too large to try every transversal.

use crate::table::{Solved, Table};

/// A complete choice of one allowed column for each row, no two the same, if there is one (alternating ways, row by row).
pub fn matching(n: usize, allowed: &dyn Fn(usize, usize) -> bool) -> Option<Vec<usize>> {
    let mut row_of = vec![usize::MAX; n];
    for i in 0..n {
        let mut seen = vec![false; n];
        if !place(n, allowed, i, &mut seen, &mut row_of) {
            return None;
        }
    }
    let mut columns = vec![0; n];
    for j in 0..n {
        columns[row_of[j]] = j;
    }
    Some(columns)
}

fn place(n: usize, allowed: &dyn Fn(usize, usize) -> bool, i: usize, seen: &mut [bool], row_of: &mut [usize]) -> bool {
    for j in 0..n {
        if !seen[j] && allowed(i, j) {
            seen[j] = true;
            if row_of[j] == usize::MAX || place(n, allowed, row_of[j], seen, row_of) {
                row_of[j] = i;
                return true;
            }
        }
    }
    false
}

/// Does a complete transversal of present orders exist?
pub fn has_transversal(table: &Table) -> bool {
    matching(table.n, &|i, j| table.order(i, j).is_some()).is_some()
}

/// Does some complete transversal consist of column maxima?
pub fn is_canon(table: &Table, additions: &[u32]) -> bool {
    let Some(heads) = table.heads(additions) else { return false };
    matching(table.n, &|i, j| table.maximum(additions, &heads, i, j)).is_some()
}

/// What is wrong with an answer, or nothing.
pub fn fault(table: &Table, solved: &Solved) -> Option<&'static str> {
    let n = table.n;
    let Some(heads) = table.heads(&solved.additions) else { return Some("a column without orders") };
    if heads != solved.heads {
        return Some("the heads are not the largest raised orders");
    }
    if solved.stars.iter().any(|&s| s == 0 || s as usize > n) {
        return Some("a star outside the table");
    }
    let columns: Vec<usize> = solved.stars.iter().map(|&s| s as usize - 1).collect();
    if (0..n).any(|j| columns.iter().filter(|&&c| c == j).count() != 1) {
        return Some("the stars are no transversal");
    }
    if (0..n).any(|i| !table.maximum(&solved.additions, &heads, i, columns[i])) {
        return Some("a star is no column maximum");
    }
    if table.total(&columns) != Some(solved.sum) {
        return Some("the sum is not the total of the starred orders");
    }
    if !levels_reach_all(table, &solved.additions, &heads, &columns) {
        return Some("the additions are not the simplest");
    }
    if !stars_are_first(table, &solved.additions, &heads, &columns) {
        return Some("the stars are not the first");
    }
    None
}

/// Jacobi's mark of the simplest canon: from the rows with addition 0, going on to each row whose star ties with an order
/// of a row already reached, every row is reached.
fn levels_reach_all(table: &Table, additions: &[u32], heads: &[i32], columns: &[usize]) -> bool {
    let mut reached: Vec<bool> = additions.iter().map(|&a| a == 0).collect();
    loop {
        let joins = |i: usize| (0..table.n).any(|k| reached[k] && table.maximum(additions, heads, k, columns[i]));
        let next = (0..table.n).find(|&i| !reached[i] && joins(i));
        let Some(i) = next else { return reached.iter().all(|&r| r) };
        reached[i] = true;
    }
}

/// No row could take an earlier column while the rows before it keep theirs.
fn stars_are_first(table: &Table, additions: &[u32], heads: &[i32], columns: &[usize]) -> bool {
    (0..table.n).all(|i| {
        (0..columns[i]).all(|earlier| {
            let allowed = |k: usize, j: usize| {
                let chosen = if k < i { j == columns[k] } else { k != i || j == earlier };
                chosen && table.maximum(additions, heads, k, j)
            };
            !allowed(i, earlier) || matching(table.n, &allowed).is_none()
        })
    })
}
