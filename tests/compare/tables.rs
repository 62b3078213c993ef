//! Random tables, and random lists to hand in with them, right and wrong.

use crate::chance::Chance;
use crate::oracle::{refused_at_sight, Truth};
use crate::table::{Table, ABSENT};
use crate::wire::{Call, Part, Request};

const KINDS: usize = 12;

/// A random table of one of many kinds.
pub fn random_table(chance: &mut Chance, n: usize) -> Table {
    let kind = chance.below(KINDS);
    match kind {
        0 => filled(chance, n, 100, 100, -100, 100),
        1 => filled(chance, n, 100, 100, 0, 3),
        2 => filled(chance, n, 100, 100, 0, 1),
        3 => filled(chance, n, 100, 100, -100, -1),
        4 => filled(chance, n, 20, 95, -100, 100),
        5 => filled(chance, n, 20, 95, -1, 2),
        6 => ranked(chance, n),
        7 => without_transversal(chance, n),
        8 => staircase(chance, n),
        9 => extremes(chance, n),
        _ => planted(chance, n),
    }
}

/// Orders from `low` to `high`, present in a random part of the places, from `least` to `most` in a hundred.
pub fn filled(chance: &mut Chance, n: usize, least: i64, most: i64, low: i64, high: i64) -> Table {
    let mut table = Table::empty(n);
    let part = chance.between(least, most) as usize;
    for i in 0..n {
        for j in 0..n {
            if chance.once_in(part, 100) {
                table.set(i, j, chance.between(low, high));
            }
        }
    }
    table
}

/// m(i) + m(j), in which every transversal is greatest, with a few places changed.
fn ranked(chance: &mut Chance, n: usize) -> Table {
    let marks: Vec<i64> = (0..n).map(|_| chance.between(-50, 50)).collect();
    let mut table = Table::empty(n);
    for i in 0..n {
        for j in 0..n {
            table.set(i, j, marks[i] + marks[j]);
        }
    }
    for _ in 0..chance.below(3) {
        let (i, j) = (chance.below(n), chance.below(n));
        table.set(i, j, chance.one_of(&[ABSENT as i64, 0, 100, -100]));
    }
    table
}

/// Some rows that have orders in fewer columns than they are themselves.
fn without_transversal(chance: &mut Chance, n: usize) -> Table {
    let mut table = filled(chance, n, 50, 100, -100, 100);
    let rows = chance.below(n) + 1;
    for i in 0..rows {
        for j in rows - 1..n {
            table.set(i, j, ABSENT as i64);
        }
    }
    shuffled(chance, &table)
}

/// Each row forces the next one up as far as orders can, so that additions come to (N − 1) × 200.
pub fn steps(n: usize, low: i64, high: i64) -> Table {
    let mut table = Table::empty(n);
    for i in 0..n {
        table.set(i, i, low);
        if i + 1 < n {
            table.set(i, i + 1, high);
        }
    }
    table
}

fn staircase(chance: &mut Chance, n: usize) -> Table {
    let mut table = steps(n, -100, 100);
    for _ in 0..chance.below(n + 1) {
        let (i, j) = (chance.below(n), chance.below(n));
        if j < i {
            table.set(i, j, chance.between(-100, 100));
        }
    }
    shuffled(chance, &table)
}

fn shuffled(chance: &mut Chance, table: &Table) -> Table {
    let n = table.n;
    let mut rows: Vec<usize> = (0..n).collect();
    let mut cols: Vec<usize> = (0..n).collect();
    chance.shuffle(&mut rows);
    chance.shuffle(&mut cols);
    let mut mixed = Table::empty(n);
    for i in 0..n {
        for j in 0..n {
            mixed.entries[i * n + j] = table.entries[rows[i] * n + cols[j]];
        }
    }
    mixed
}

fn extremes(chance: &mut Chance, n: usize) -> Table {
    let choices = [-100, 100, ABSENT as i64, 100, -100, 99, -99, 0];
    let count = chance.between(2, choices.len() as i64) as usize;
    let mut table = Table::empty(n);
    for i in 0..n {
        for j in 0..n {
            table.set(i, j, chance.one_of(&choices[..count]));
        }
    }
    table
}

/// Orders just below the heads of a canon chosen beforehand: many ties, long ways from row to row.
fn planted(chance: &mut Chance, n: usize) -> Table {
    let spread = chance.between(0, 60);
    let slack = chance.between(0, 3);
    let additions: Vec<i64> = (0..n).map(|_| chance.between(0, spread)).collect();
    let heads: Vec<i64> = (0..n).map(|_| chance.between(0, 60)).collect();
    let part = chance.between(40, 100) as usize;
    let mut table = Table::empty(n);
    for i in 0..n {
        for j in 0..n {
            if i == j || chance.once_in(part, 100) {
                let below = if i == j { 0 } else { chance.between(0, slack) };
                table.set(i, j, heads[j] - additions[i] - below);
            }
        }
    }
    shuffled(chance, &table)
}

/// Additions to hand in: the simplest canon, other canons, canons just spoilt, and anything.
fn random_additions(chance: &mut Chance, truth: &Truth) -> Vec<u32> {
    let n = truth.table.n;
    let kind = chance.below(8);
    let Some(solved) = &truth.solved else { return anything(chance, n) };
    let simplest = &solved.additions;
    let room = 10_000 - simplest.iter().max().expect("a table has a row");
    match kind {
        0 => simplest.clone(),
        1 => {
            let more = chance.one_of(&[1, 7, room, room + 1]);
            simplest.iter().map(|&a| a + more).collect()
        }
        2 | 3 | 4 => {
            let mut additions = canon_above(chance, truth);
            if kind == 4 {
                nudge(chance, &mut additions);
            }
            additions
        }
        5 | 6 => {
            let mut additions = simplest.clone();
            nudge(chance, &mut additions);
            additions
        }
        _ => anything(chance, n),
    }
}

/// One addition a little more or less.
pub fn nudge(chance: &mut Chance, additions: &mut [u32]) {
    let i = chance.below(additions.len());
    additions[i] = (additions[i] as i64 + chance.one_of(&[-1, 1, -2, 3])).max(0) as u32;
}

fn anything(chance: &mut Chance, n: usize) -> Vec<u32> {
    let top = chance.one_of(&[0, 1, 3, 300, 10_000, 10_001, u32::MAX as i64]);
    (0..n).map(|_| chance.between(0, top) as u32).collect()
}

/// The least canon above random floors.
fn canon_above(chance: &mut Chance, truth: &Truth) -> Vec<u32> {
    let solved = truth.solved.as_ref().expect("the table has an answer");
    let top = chance.one_of(&[1, 5, 50, 2000]);
    let floors: Vec<u32> = (0..truth.table.n).map(|_| chance.between(0, top) as u32).collect();
    let columns: Vec<usize> = solved.stars.iter().map(|&s| s as usize - 1).collect();
    truth.table.least_by(&columns, &floors).expect("the stars belong to a canon")
}

/// Stars to hand in: the first, other transversals of greatest sum, any permutation, and lists that are none.
fn random_stars(chance: &mut Chance, truth: &Truth) -> Vec<u32> {
    let n = truth.table.n;
    let mut stars: Vec<u32> = (1..=n as u32).collect();
    chance.shuffle(&mut stars);
    match (chance.below(6), &truth.solved) {
        (0, Some(solved)) => solved.stars.clone(),
        (1 | 2, Some(solved)) => another_greatest(chance, truth, solved.sum).unwrap_or(stars),
        (3, _) => {
            let wrong = chance.one_of(&[0, n as u32 + 1, 33, u32::MAX, stars[n - 1]]);
            stars[0] = wrong;
            stars
        }
        (4, Some(solved)) if n > 1 => {
            stars = solved.stars.clone();
            let (i, j) = (chance.below(n), chance.below(n));
            stars.swap(i, j);
            stars
        }
        _ => stars,
    }
}

fn another_greatest(chance: &mut Chance, truth: &Truth, sum: i32) -> Option<Vec<u32>> {
    let all = truth.transversals.as_ref()?;
    let start = chance.below(all.len());
    let after = all[start..].iter().chain(&all[..start]);
    let found = after.into_iter().find(|columns| truth.table.total(columns) == Some(sum))?;
    Some(found.iter().map(|&j| j as u32 + 1).collect())
}

/// A slice to be written, full of chance.
pub fn lent(chance: &mut Chance, size: usize, count: usize) -> Part {
    Part { size, bytes: (0..size * count).map(|_| chance.next() as u8).collect() }
}

/// A request of the call, whole and in order, with the list given.
pub fn request(chance: &mut Chance, call: Call, table: &Table, given: &[u32]) -> Request {
    let n = table.n;
    let mut parts = vec![Part::orders(&table.entries)];
    if call != Call::Solve {
        parts.push(Part::numbers(given));
    }
    if call == Call::IsSimplest {
        parts.push(lent(chance, 1, 1));
    } else if call == Call::ColumnHeads {
        parts.extend([lent(chance, 4, n), lent(chance, 4, n), lent(chance, 4, n)]);
    } else {
        parts.extend([lent(chance, 4, n), lent(chance, 4, n), lent(chance, 4, n), lent(chance, 4, 1)]);
    }
    Request { call, n: n as u64, parts }
}

/// The requests that try one table: every call, with lists right and wrong, and some spoilt.
pub fn requests(chance: &mut Chance, truth: &Truth) -> Vec<Request> {
    let table = &truth.table;
    let mut all = vec![request(chance, Call::Solve, table, &[])];
    for _ in 0..3 {
        let additions = random_additions(chance, truth);
        all.push(request(chance, Call::FromCanon, table, &additions));
        all.push(request(chance, Call::IsSimplest, table, &additions));
        all.push(request(chance, Call::ColumnHeads, table, &additions));
        let stars = random_stars(chance, truth);
        all.push(request(chance, Call::FromStars, table, &stars));
    }
    for _ in 0..2 {
        let k = chance.below(all.len());
        let mut spoilt = all[k].clone();
        spoil(chance, &mut spoilt);
        if refused_at_sight(&spoilt).is_some() {
            all.push(spoilt);
        }
    }
    all
}

/// One or two things wrong: the size, a length, or an entry.
pub fn spoil(chance: &mut Chance, request: &mut Request) {
    for _ in 0..chance.between(1, 2) {
        match chance.below(4) {
            0 => request.n = chance.one_of(&[0, 33, 34, 64, 1 << 16, 1 << 32, 1 << 63, u64::MAX, request.n + 1]),
            1 | 2 => spoil_length(chance, request),
            _ => spoil_entry(chance, &mut request.parts[0]),
        }
    }
}

fn spoil_length(chance: &mut Chance, request: &mut Request) {
    let slices = request.slices();
    let part = &mut request.parts[chance.below(slices)];
    let count = part.count();
    let other = chance.one_of(&[0, count.saturating_sub(1), count + 1, 2 * count, 1024]);
    let fill = part.bytes.first().copied().unwrap_or(0);
    part.bytes.resize(other * part.size, fill);
}

fn spoil_entry(chance: &mut Chance, part: &mut Part) {
    if part.bytes.is_empty() {
        return;
    }
    let mut entries = part.as_orders();
    let inside = chance.below(entries.len());
    let at = chance.one_of(&[0, entries.len() - 1, inside]);
    entries[at] = chance.one_of(&[101, -101, 32767, -32767, 128, -129, 1000]);
    *part = Part::orders(&entries);
}
