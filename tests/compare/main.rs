//! Compares the C interface with an independent second program that tries every transversal.
//!
//! compare SEED COUNT VECTORS EXAMPLES DRIVER..: COUNT random tables of up to 7 rows, COUNT / 20 tables of 8 to 32 rows
//! checked by certificate and printed, as many again with ties and empty columns for the heads of columns, COUNT / 4 printed about the
//! edges of the index figure, COUNT random and mutated sheets, the stored vectors in the file VECTORS, and the sheets in the folder EXAMPLES with
//! the answers beside them. DRIVER.. is the command that runs driver.c. Ends with status 1 on any difference, and also if some refusal
//! that a call can give was never given, or some side of the figure's edges never printed.

mod brute;
mod certificate;
mod chance;
mod figures;
mod heads;
mod oracle;
mod sheets;
mod table;
mod tables;
mod vectors;
mod wire;

use chance::Chance;
use oracle::Truth;
use std::collections::BTreeMap;
use table::Table;
use wire::{Answer, Call, Driver, Part, Request};

struct Tally {
    failures: usize,
    /// How often each call gave each status.
    given: BTreeMap<(u8, u32), usize>,
    /// How often each call gave something else than is right.
    different: BTreeMap<u8, usize>,
    /// How many tables with an answer were printed on each side of the index figure's edges.
    sides: BTreeMap<(bool, bool), usize>,
}

impl Tally {
    /// Compares answers with what is expected, every lent byte and every guard included.
    fn compare(&mut self, requests: &[Request], expected: &[Answer], answers: &[Answer]) {
        for ((request, wanted), answer) in requests.iter().zip(expected).zip(answers) {
            *self.given.entry((request.call as u8, answer.status)).or_insert(0) += 1;
            if wanted != answer {
                self.failures += 1;
                let seen = self.different.entry(request.call as u8).or_insert(0);
                *seen += 1;
                if *seen <= 3 {
                    let (asked, right, wrong) = (request.describe(), wanted.describe(), answer.describe());
                    println!("DIFFERENT\nasked {asked}\nwanted {right}\ngiven {wrong}");
                }
            }
        }
    }

    /// Every refusal that document 01 lets a call give must have been given.
    fn missing(&self) -> Vec<String> {
        let possible: [(Call, &[u32]); 8] = [
            (Call::Solve, &[0, 1, 2, 3, 6]),
            (Call::FromCanon, &[0, 1, 2, 3, 4, 6, 7]),
            (Call::FromStars, &[0, 1, 2, 3, 5, 6, 8]),
            (Call::IsSimplest, &[0, 1, 2, 3, 4, 6, 7]),
            (Call::ReadSheet, &[0, 2, 9, 10]),
            (Call::WriteSheet, &[0, 1, 2, 3, 11, 12]),
            (Call::Print, &[0, 12]),
            (Call::ColumnHeads, &[0, 1, 2, 3, 4]),
        ];
        let pairs = possible.iter().flat_map(|(call, numbers)| numbers.iter().map(move |number| (*call, *number)));
        let mut missing: Vec<String> = pairs
            .filter(|(call, number)| !self.given.contains_key(&(*call as u8, *number)))
            .map(|(call, number)| format!("{call:?} never gave {number}"))
            .collect();
        if self.sides.len() < 4 {
            missing.push(format!("printed only tables with (negative order, head 0) of {:?}", self.sides.keys()));
        }
        missing
    }
}

/// The oracle is held against a search over all additions, on the least tables.
fn check_oracle(chance: &mut Chance, count: usize) {
    for _ in 0..count {
        let n = chance.between(1, 3) as usize;
        let mut table = Table::empty(n);
        for k in 0..n * n {
            if chance.once_in(4, 5) {
                table.entries[k] = chance.between(-1, 2) as i16;
            }
        }
        let truth = Truth::by_trying(table);
        let all = truth.transversals.as_ref().expect("a small table");
        let found = brute::simplest_by_search(&truth.table, all, 3 * (n as u32 - 1));
        assert_eq!(found, truth.solved.map(|s| s.additions), "the second program agrees with the definition");
    }
}

fn small_tables(driver: &mut Driver, chance: &mut Chance, tally: &mut Tally, count: usize) {
    let mut left = count;
    while left > 0 {
        let batch = left.min(250);
        left -= batch;
        let mut requests = Vec::new();
        let mut expected = Vec::new();
        for _ in 0..batch {
            let n = chance.one_of(&[1, 2, 2, 3, 3, 4, 4, 5, 5, 6, 6, 7]);
            let truth = Truth::by_trying(tables::random_table(chance, n));
            for request in tables::requests(chance, &truth) {
                expected.push(oracle::expected(&request, &truth));
                requests.push(request);
            }
        }
        let answers = driver.ask(&requests);
        tally.compare(&requests, &expected, &answers);
    }
}

/// The answers of the table alone are certified, and then are the truth for the other calls.
fn large_tables(driver: &mut Driver, chance: &mut Chance, tally: &mut Tally, count: usize) {
    let mut left = count;
    while left > 0 {
        let batch = left.min(50);
        left -= batch;
        let mut tables: Vec<Table> = Vec::new();
        for _ in 0..batch {
            let n = chance.between(8, 32) as usize;
            tables.push(tables::random_table(chance, n));
        }
        let alone: Vec<Request> = tables.iter().map(|t| tables::request(chance, Call::Solve, t, &[])).collect();
        let answers = driver.ask(&alone);
        let mut requests = Vec::new();
        let mut expected = Vec::new();
        for ((table, request), answer) in tables.into_iter().zip(&alone).zip(&answers) {
            let solved = (answer.status == 0).then(|| vectors::solved_in(answer, 1));
            match Truth::certified(table, solved) {
                Ok(truth) => {
                    for request in tables::requests(chance, &truth) {
                        expected.push(oracle::expected(&request, &truth));
                        requests.push(request);
                    }
                    let (request, wanted) = printing(chance, tally, &truth);
                    requests.push(request);
                    expected.push(wanted);
                }
                Err(fault) => {
                    tally.failures += 1;
                    println!("WRONG ({fault})\nasked {}\ngiven {}", request.describe(), answer.describe());
                }
            }
        }
        let answers = driver.ask(&requests);
        tally.compare(&requests, &expected, &answers);
    }
}

/// A request to print a table whose answer is known, with room for it, and what must come of it.
fn printing(chance: &mut Chance, tally: &mut Tally, truth: &Truth) -> (Request, Answer) {
    if let Some(side) = figures::side(truth) {
        *tally.sides.entry(side).or_insert(0) += 1;
    }
    let sheet = sheets::text(&sheets::labelled(chance, truth.table.clone()));
    let page = sheets::page(truth);
    let room = chance.one_of(&[sheets::PRINTED, page.len()]);
    let request = sheets::roomy_request(chance, &sheet, room);
    let wanted = sheets::expected_page(&request, &page);
    (request, wanted)
}

/// Printed answers about the edges of the index figure: COUNT tables of 1 to 6 rows.
fn figure_tables(driver: &mut Driver, chance: &mut Chance, tally: &mut Tally, count: usize) {
    let sizes: Vec<usize> = (0..count).map(|k| k % 6 + 1).collect();
    for batch in sizes.chunks(250) {
        let mut requests = Vec::new();
        let mut expected = Vec::new();
        for &n in batch {
            let truth = Truth::by_trying(figures::random_table(chance, n));
            let (request, wanted) = printing(chance, tally, &truth);
            requests.push(request);
            expected.push(wanted);
        }
        let answers = driver.ask(&requests);
        tally.compare(&requests, &expected, &answers);
    }
}

/// Heads of columns by plain search: COUNT tables of 1 to 7 rows, each size in turn, and COUNT / 20 of 8 to 32 rows.
fn tied_tables(driver: &mut Driver, chance: &mut Chance, tally: &mut Tally, count: usize) {
    let mut sizes: Vec<usize> = (0..count).map(|k| k % 7 + 1).collect();
    sizes.extend((0..count / 20).map(|k| k % 25 + 8));
    for batch in sizes.chunks(250) {
        let requests: Vec<Request> = batch.iter().map(|&n| heads::random_request(chance, n)).collect();
        let expected: Vec<Answer> = requests.iter().map(oracle::expected_heads).collect();
        let answers = driver.ask(&requests);
        tally.compare(&requests, &expected, &answers);
    }
}

fn random_sheets(driver: &mut Driver, chance: &mut Chance, tally: &mut Tally, count: usize) {
    let mut left = count;
    while left > 0 {
        let batch = left.min(250);
        left -= batch;
        let mut requests = Vec::new();
        for _ in 0..batch {
            let n = chance.one_of(&[1, 2, 3, 4, 5, 6, 31, 32]);
            let labelled = sheets::random_labelled(chance, n);
            let sheet = sheets::text(&labelled);
            let changed = if chance.once_in(2, 3) { sheets::mutated(chance, &sheet) } else { sheet };
            requests.push(sheets::read_request(chance, &changed));
            requests.push(sheets::write_request(chance, &labelled));
            if n < 7 {
                let length = sheets::printed(&changed).len();
                requests.push(sheets::print_request(chance, &changed, length));
            }
        }
        let expected: Vec<Answer> = requests
            .iter()
            .map(|request| match request.call {
                Call::ReadSheet => sheets::expected_read(request),
                Call::WriteSheet => sheets::expected_write(request),
                _ => sheets::expected_print(request),
            })
            .collect();
        let answers = driver.ask(&requests);
        tally.compare(&requests, &expected, &answers);
    }
}

/// Each NAME.sheet of a folder prints what NAME.answer has.
fn example_sheets(driver: &mut Driver, chance: &mut Chance, tally: &mut Tally, folder: &str) -> usize {
    let mut names: Vec<_> = std::fs::read_dir(folder).expect("the examples").map(|e| e.expect("a file").path()).collect();
    names.retain(|path| path.extension().is_some_and(|end| end == "sheet"));
    names.sort();
    for path in &names {
        let sheet = std::fs::read(path).expect("a sheet");
        let answer = std::fs::read(path.with_extension("answer")).expect("an answer beside the sheet");
        let request = sheets::roomy_request(chance, &sheet, sheets::PRINTED);
        let mut wanted = request.refused(0);
        wanted.parts[1].write_front(&answer);
        wanted.parts[2] = Part::length(answer.len() as u64);
        let answers = driver.ask(std::slice::from_ref(&request));
        tally.compare(&[request], &[wanted], &answers);
    }
    names.len()
}

fn main() {
    let words: Vec<String> = std::env::args().skip(1).collect();
    let [seed, count, vectors, examples, driver @ ..] = &words[..] else {
        eprintln!("usage: compare SEED COUNT VECTORS EXAMPLES DRIVER..");
        std::process::exit(2);
    };
    let seed: u64 = seed.parse().expect("SEED is a number");
    let count: usize = count.parse().expect("COUNT is a number");
    let mut chance = Chance::new(seed);
    let mut driver = Driver::start(driver);
    let mut tally = Tally { failures: 0, given: BTreeMap::new(), different: BTreeMap::new(), sides: BTreeMap::new() };
    let text = std::fs::read_to_string(vectors).expect("the vectors");
    let stored = vectors::run(&mut driver, &text, &mut tally.failures);
    check_oracle(&mut chance, count / 20);
    small_tables(&mut driver, &mut chance, &mut tally, count);
    large_tables(&mut driver, &mut chance, &mut tally, count / 20);
    tied_tables(&mut driver, &mut chance, &mut tally, count);
    figure_tables(&mut driver, &mut chance, &mut tally, count / 4);
    random_sheets(&mut driver, &mut chance, &mut tally, count);
    let sheets = example_sheets(&mut driver, &mut chance, &mut tally, examples);
    let missing = tally.missing();
    missing.iter().for_each(|words| println!("{words}"));
    let ended = driver.finish();
    let large = count / 20;
    let calls: usize = tally.given.values().sum::<usize>() + stored;
    println!(
        "compare: seed {seed}, {count} tables up to 7 rows, {large} of 8 to 32 rows, as many with ties, {} printed for the index \
         figure, {count} sheets, {sheets} example sheets, {stored} stored vectors, {calls} calls, {} different",
        count / 4,
        tally.failures
    );
    for (call, count) in &tally.different {
        println!("compare: call {call} differed {count} times");
    }
    if tally.failures > 0 || !missing.is_empty() || !ended {
        std::process::exit(1);
    }
}
