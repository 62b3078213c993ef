//! The rod pendulum, solved from Rust, and the ties that a drawing screen would mark; libcanon.a is a copy of
//! crates/exports/out/libexports.a:
//!   rustc -O examples/solve.rs -L FOLDER -l static=canon && ./solve

extern "C" {
    // A slice is a pointer and its number of elements.
    #[rustfmt::skip]
    fn canon_solve(n: usize, table: *const i16, table_len: usize, adds: *mut u32, adds_len: usize,
        stars: *mut u32, stars_len: usize, heads: *mut i32, heads_len: usize, sum: *mut i32) -> u32;
    #[rustfmt::skip]
    fn canon_column_heads(n: usize, table: *const i16, table_len: usize, given: *const u32, given_len: usize,
        heads: *mut i32, heads_len: usize, rows: *mut u32, rows_len: usize, counts: *mut u32, counts_len: usize) -> u32;
    #[rustfmt::skip]
    fn canon_write_sheet(n: usize, table: *const i16, table_len: usize, rows: *const u8, rows_len: usize,
        cols: *const u8, cols_len: usize, out: *mut u8, out_len: usize, length: *mut usize) -> u32;
    fn canon_print(sheet: *const u8, sheet_len: usize, out: *mut u8, out_len: usize, length: *mut usize) -> u32;
}

const ABSENT: i16 = -32768;

struct Answer {
    adds: Vec<u32>,
    stars: Vec<u32>,
    heads: Vec<i32>,
    sum: i32,
}

/// The simplest canon of a table of n rows, or document 01's refusal number.
fn solve(n: usize, table: &[i16]) -> Result<Answer, u32> {
    let mut answer = Answer { adds: vec![0; n], stars: vec![0; n], heads: vec![0; n], sum: 0 };
    let (adds, stars, heads) = (answer.adds.as_mut_ptr(), answer.stars.as_mut_ptr(), answer.heads.as_mut_ptr());
    // Safety: each pointer is to as many elements as are said, and none of the slices overlap.
    let refused = unsafe { canon_solve(n, table.as_ptr(), table.len(), adds, n, stars, n, heads, n, &mut answer.sum) };
    if refused == 0 { Ok(answer) } else { Err(refused) }
}

/// Of each column under additions: its head, the lowest row that holds it, and how many rows do.
struct Columns {
    heads: Vec<i32>,
    rows: Vec<u32>,
    counts: Vec<u32>,
}

fn column_heads(n: usize, table: &[i16], given: &[u32]) -> Result<Columns, u32> {
    let mut columns = Columns { heads: vec![0; n], rows: vec![0; n], counts: vec![0; n] };
    let (heads, rows, counts) = (columns.heads.as_mut_ptr(), columns.rows.as_mut_ptr(), columns.counts.as_mut_ptr());
    // Safety: as above.
    let refused = unsafe {
        canon_column_heads(n, table.as_ptr(), table.len(), given.as_ptr(), given.len(), heads, n, rows, n, counts, n)
    };
    if refused == 0 { Ok(columns) } else { Err(refused) }
}

/// A table with its labels: 8 bytes each, filled up with zero bytes.
struct Labelled {
    n: usize,
    table: Vec<i16>,
    equations: Vec<u8>,
    unknowns: Vec<u8>,
}

fn slots(labels: &[&str]) -> Vec<u8> {
    labels.iter().flat_map(|label| format!("{label:\0<8}").into_bytes()).collect()
}

/// The printed answer of a labelled table, by way of its sheet.
fn printed(drawn: &Labelled) -> Result<String, u32> {
    let (mut sheet, mut text, mut length) = (vec![0; 12288], vec![0; 4000], 0);
    let (rows, cols) = (&drawn.equations, &drawn.unknowns);
    // Safety: as above.
    let refused = unsafe {
        canon_write_sheet(drawn.n, drawn.table.as_ptr(), drawn.table.len(), rows.as_ptr(), rows.len(), cols.as_ptr(), cols.len(),
            sheet.as_mut_ptr(), sheet.len(), &mut length)
    };
    if refused != 0 {
        return Err(refused);
    }
    sheet.truncate(length);
    let refused = unsafe { canon_print(sheet.as_ptr(), sheet.len(), text.as_mut_ptr(), text.len(), &mut length) };
    text.truncate(length);
    if refused == 0 { Ok(String::from_utf8(text).expect("the answer is ASCII")) } else { Err(refused) }
}

fn print<T: ToString>(name: &str, values: &[T]) {
    println!("{name} {}", values.len());
    values.iter().for_each(|value| println!("{}", value.to_string()));
}

fn print_all(drawn: &Labelled) -> Result<(), u32> {
    let n = drawn.n;
    let answer = solve(n, &drawn.table)?;
    let columns = column_heads(n, &drawn.table, &answer.adds)?;
    let page = printed(drawn)?;
    print("adds", &answer.adds);
    print("stars", &answer.stars);
    print("heads", &answer.heads);
    print("ties", &columns.counts);
    print("sum", &[answer.sum]);
    // The index figure stands in the printed answer, under its heading.
    print("index", &[page.lines().skip_while(|&line| line != "index 1").nth(1).expect("the figure under its heading")]);
    for j in (0..n).filter(|&j| columns.counts[j] > 1) {
        println!("column {}: {} rows share {}, the lowest is row {}", j + 1, columns.counts[j], columns.heads[j], columns.rows[j]);
    }
    Ok(())
}

fn main() {
    let drawn = Labelled {
        n: 3,
        table: vec![2, ABSENT, 0, ABSENT, 2, 0, 0, 0, ABSENT],
        equations: slots(&["fx", "fy", "rod"]),
        unknowns: slots(&["x", "y", "pull"]),
    };
    if let Err(number) = print_all(&drawn) {
        println!("refused {number}");
    }
}
