//! What each solver call must answer, from document 01's table of refusals and the truth about the table.

use crate::brute;
use crate::certificate;
use crate::table::{ColumnHead, Solved, Table, ABSENT};
use crate::wire::{Answer, Call, Part, Request};

/// A table with its answer, or with nothing where no complete transversal exists.
pub struct Truth {
    pub table: Table,
    pub solved: Option<Solved>,
    /// Every transversal, where the table is small enough.
    pub transversals: Option<Vec<Vec<usize>>>,
}

impl Truth {
    pub fn by_trying(table: Table) -> Truth {
        let all = brute::transversals(&table);
        let solved = brute::solve(&table, &all);
        Truth { table, solved, transversals: Some(all) }
    }

    /// The library's own answer, if nothing is wrong with it.
    pub fn certified(table: Table, answer: Option<Solved>) -> Result<Truth, &'static str> {
        match &answer {
            None if certificate::has_transversal(&table) => return Err("refused, though a transversal exists"),
            Some(solved) => match certificate::fault(&table, solved) {
                Some(fault) => return Err(fault),
                None => {}
            },
            None => {}
        }
        Ok(Truth { table, solved: answer, transversals: None })
    }

    pub fn is_canon(&self, additions: &[u32]) -> bool {
        match &self.transversals {
            Some(all) => brute::is_canon(&self.table, all, additions),
            None => certificate::is_canon(&self.table, additions),
        }
    }
}

/// Is an entry absent or an order within the limit?
pub fn entry_stands(entry: i16) -> bool {
    entry == ABSENT || (-100..=100).contains(&entry)
}

fn lengths_wanted(request: &Request) -> Vec<usize> {
    let n = request.n as usize;
    match request.call {
        Call::Solve => vec![n * n, n, n, n],
        Call::FromCanon | Call::FromStars | Call::ColumnHeads => vec![n * n, n, n, n, n],
        _ => vec![n * n, n],
    }
}

fn star_list_stands(n: u64, stars: &[u32]) -> bool {
    let within = stars.iter().all(|&s| s >= 1 && s as u64 <= n);
    within && (0..stars.len()).all(|i| !stars[..i].contains(&stars[i]))
}

/// The refusals that need no knowledge of transversals: 1 to 5.
pub fn refused_at_sight(request: &Request) -> Option<u32> {
    if request.n == 0 || request.n > 32 {
        return Some(1);
    }
    let wanted = lengths_wanted(request);
    if wanted.iter().zip(&request.parts).any(|(&length, part)| part.count() != length) {
        return Some(2);
    }
    if request.parts[0].as_orders().iter().any(|&entry| !entry_stands(entry)) {
        return Some(3);
    }
    let given = request.parts[1].as_numbers();
    match request.call {
        Call::FromCanon | Call::IsSimplest | Call::ColumnHeads if given.iter().any(|&a| a > 10_000) => Some(4),
        Call::FromStars if !star_list_stands(request.n, &given) => Some(5),
        _ => None,
    }
}

/// The answer that a solver call must give, every lent byte included.
pub fn expected(request: &Request, truth: &Truth) -> Answer {
    if request.call == Call::ColumnHeads {
        return expected_heads(request);
    }
    if let Some(number) = refused_at_sight(request) {
        return request.refused(number);
    }
    assert_eq!(request.parts[0].as_orders(), truth.table.entries, "the truth is about another table");
    let Some(solved) = &truth.solved else { return request.refused(6) };
    let given = request.parts[1].as_numbers();
    match request.call {
        Call::Solve => answered(request, solved, 1),
        Call::FromCanon if !truth.is_canon(&given) => request.refused(7),
        Call::FromStars if !greatest(truth, solved, &given) => request.refused(8),
        Call::FromCanon | Call::FromStars => answered(request, solved, 2),
        _ if !truth.is_canon(&given) => request.refused(7),
        _ => {
            let mut answer = request.refused(0);
            answer.parts[2] = Part::text(&[(given == solved.additions) as u8]);
            answer
        }
    }
}

/// What the heads of columns must answer: whether a complete transversal exists is not asked.
pub fn expected_heads(request: &Request) -> Answer {
    if let Some(number) = refused_at_sight(request) {
        return request.refused(number);
    }
    let table = Table { n: request.n as usize, entries: request.parts[0].as_orders() };
    headed(request, &table.column_heads(&request.parts[1].as_numbers()))
}

/// The answer with these heads, rows and counts.
pub fn headed(request: &Request, columns: &[ColumnHead]) -> Answer {
    let mut answer = request.refused(0);
    answer.parts[2] = Part::signed(&columns.iter().map(|c| c.head).collect::<Vec<_>>());
    answer.parts[3] = Part::numbers(&columns.iter().map(|c| c.row).collect::<Vec<_>>());
    answer.parts[4] = Part::numbers(&columns.iter().map(|c| c.count).collect::<Vec<_>>());
    answer
}

fn greatest(truth: &Truth, solved: &Solved, stars: &[u32]) -> bool {
    let columns: Vec<usize> = stars.iter().map(|&s| s as usize - 1).collect();
    truth.table.total(&columns) == Some(solved.sum)
}

/// The answer with additions, stars, heads and sum in the parts from `first` on.
fn answered(request: &Request, solved: &Solved, first: usize) -> Answer {
    let mut answer = request.refused(0);
    answer.parts[first] = Part::numbers(&solved.additions);
    answer.parts[first + 1] = Part::numbers(&solved.stars);
    answer.parts[first + 2] = Part::signed(&solved.heads);
    answer.parts[first + 3] = Part::signed(&[solved.sum]);
    answer
}
