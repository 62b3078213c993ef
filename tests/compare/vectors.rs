//! The stored vectors: document 01's tables and the squares printed in the sources.
//!
//! A case is `case NAME`, the table's rows (`row 2 - 0`, absent as `-`), then what must come out of the table alone
//! (`adds`, `stars`, `heads`, `sum`, as far as the source prints them, or `refused`), then what must come of lists handed
//! in: `from-canon LIST`, `from-stars LIST` (the table's own answer, or `: refused NUMBER`), `simplest LIST : yes`, `: no`
//! or `: refused NUMBER`, `column-heads LIST : HEAD ROW COUNT, ..` (a column each) or `: refused NUMBER`; `ties` are the counts
//! under the additions found, `index` the figure that is printed. `all VALUE N` stands for N rows of one value; `#` starts a comment.

use crate::certificate;
use crate::chance::Chance;
use crate::oracle::{self, Truth};
use crate::sheets;
use crate::table::{ColumnHead, Solved, Table, ABSENT};
use crate::tables::request;
use crate::wire::{Answer, Call, Driver, Request};

#[derive(Default)]
struct Case {
    name: String,
    rows: Vec<Vec<i16>>,
    adds: Option<Vec<u32>>,
    stars: Option<Vec<u32>>,
    heads: Option<Vec<i32>>,
    ties: Option<Vec<u32>>,
    sum: Option<i32>,
    index: Option<u32>,
    refused: u32,
    tries: Vec<(Call, Vec<u32>, String)>,
}

fn numbers<T: std::str::FromStr>(words: &str) -> Vec<T> {
    let number = |word: &str| word.parse().unwrap_or_else(|_| panic!("no number in the vectors: {word}"));
    words.split_whitespace().map(number).collect()
}

fn entries(words: &str) -> Vec<i16> {
    words.split_whitespace().flat_map(|w| if w == "-" { vec![ABSENT] } else { numbers(w) }).collect()
}

impl Case {
    fn take(&mut self, word: &str, rest: &str) {
        let (list, outcome) = rest.split_once(':').map_or((rest, "same"), |(l, o)| (l, o.trim()));
        match word {
            "row" => self.rows.push(entries(rest)),
            "all" => {
                let words: Vec<usize> = numbers(rest);
                self.rows = vec![vec![words[0] as i16; words[1]]; words[1]];
            }
            "adds" => self.adds = Some(numbers(rest)),
            "stars" => self.stars = Some(numbers(rest)),
            "heads" => self.heads = Some(numbers(rest)),
            "ties" => self.ties = Some(numbers(rest)),
            "sum" => self.sum = numbers(rest).pop(),
            "index" => self.index = numbers(rest).pop(),
            "refused" => self.refused = numbers(rest)[0],
            "from-canon" => self.tries.push((Call::FromCanon, numbers(list), outcome.to_string())),
            "from-stars" => self.tries.push((Call::FromStars, numbers(list), outcome.to_string())),
            "simplest" => self.tries.push((Call::IsSimplest, numbers(list), outcome.to_string())),
            "column-heads" => self.tries.push((Call::ColumnHeads, numbers(list), outcome.to_string())),
            _ => panic!("the vectors have no word {word}"),
        }
    }

    fn table(&self) -> Table {
        Table { n: self.rows.len(), entries: self.rows.concat() }
    }
}

fn parse(text: &str) -> Vec<Case> {
    let mut cases: Vec<Case> = Vec::new();
    for line in text.lines().map(|line| line.split('#').next().unwrap_or("").trim()).filter(|line| !line.is_empty()) {
        let (word, rest) = line.split_once(' ').unwrap_or((line, ""));
        if word == "case" {
            cases.push(Case { name: rest.to_string(), ..Case::default() });
        } else {
            cases.last_mut().expect("a case comes first").take(word, rest);
        }
    }
    cases
}

/// The four results in the parts of an answer from `first` on.
pub fn solved_in(answer: &Answer, first: usize) -> Solved {
    Solved {
        additions: answer.parts[first].as_numbers(),
        stars: answer.parts[first + 1].as_numbers(),
        heads: answer.parts[first + 2].as_signed(),
        sum: answer.parts[first + 3].as_signed()[0],
    }
}

fn differs<T: PartialEq>(wanted: &Option<T>, found: &T) -> bool {
    wanted.as_ref().is_some_and(|wanted| wanted != found)
}

/// What is wrong with the answer to the table alone.
fn fault_alone(case: &Case, answer: &Answer) -> Option<String> {
    if answer.status != case.refused {
        return Some(format!("status {} where {} is wanted", answer.status, case.refused));
    }
    if case.refused != 0 {
        return None;
    }
    let solved = solved_in(answer, 1);
    let other = differs(&case.adds, &solved.additions)
        || differs(&case.stars, &solved.stars)
        || differs(&case.heads, &solved.heads)
        || differs(&case.sum, &solved.sum);
    if other {
        return Some(format!("another answer than is printed: {solved:?}"));
    }
    certificate::fault(&case.table(), &solved).map(|fault| fault.to_string())
}

fn fault_of_try(request: &Request, outcome: &str, alone: &Answer, answer: &Answer) -> Option<String> {
    let wanted = match outcome.strip_prefix("refused ") {
        Some(number) => numbers(number)[0],
        None => 0,
    };
    if answer.status != wanted {
        return Some(format!("status {} where {wanted} is wanted", answer.status));
    }
    let right = match (wanted, request.call) {
        (0, Call::IsSimplest) => answer.parts[2].bytes == [(outcome == "yes") as u8],
        (0, Call::ColumnHeads) => oracle::expected_heads(request) == oracle::headed(request, &column_heads(outcome)),
        (0, _) => solved_in(answer, 2) == solved_in(alone, 1),
        _ => true,
    };
    let right = right && (request.call != Call::ColumnHeads || *answer == oracle::expected_heads(request));
    if right { None } else { Some(format!("another answer than {outcome}")) }
}

/// `HEAD ROW COUNT, ..`
fn column_heads(words: &str) -> Vec<ColumnHead> {
    let column = |words: &str| {
        let [head, row, count] = numbers::<i32>(words)[..] else { panic!("no head, row and count in the vectors: {words}") };
        ColumnHead { head, row: row as u32, count: count as u32 }
    };
    words.split(',').map(column).collect()
}

/// What is wrong with the heads of columns under the additions found: the heads are the answer's, the counts the ties.
fn fault_of_ties(case: &Case, alone: &Answer, request: &Request, answer: &Answer) -> Option<String> {
    if *answer != oracle::expected_heads(request) || answer.parts[2] != alone.parts[3] {
        return Some("other heads, rows or counts".to_string());
    }
    differs(&case.ties, &answer.parts[4].as_numbers()).then(|| "other ties than are stored".to_string())
}

/// Prints the table. The page must be that of the answer to the table alone, and the index figure the one stored.
fn print_case(driver: &mut Driver, chance: &mut Chance, case: &Case, alone: &Answer) -> (Request, Option<String>) {
    let solved = (alone.status == 0).then(|| solved_in(alone, 1));
    let truth = Truth { table: case.table(), solved, transversals: None };
    let page = sheets::page(&truth);
    let sheet = sheets::text(&sheets::labelled(chance, case.table()));
    let request = sheets::roomy_request(chance, &sheet, sheets::PRINTED);
    let answer = driver.ask(std::slice::from_ref(&request)).remove(0);
    let index = truth.solved.as_ref().map(|solved| truth.table.index(&solved.additions));
    let fault = if answer != sheets::expected_page(&request, &page) {
        Some("another printed answer")
    } else if case.index.is_some() && case.index != index {
        Some("another index figure than is stored")
    } else {
        None
    };
    (request, fault.map(|words| words.to_string()))
}

/// Runs all vectors; gives their number and prints what fails.
pub fn run(driver: &mut Driver, text: &str, failures: &mut usize) -> usize {
    let mut chance = Chance::new(1);
    let mut count = 0;
    for case in parse(text) {
        let table = case.table();
        let mut requests = vec![request(&mut chance, Call::Solve, &table, &[])];
        requests.extend(case.tries.iter().map(|(call, given, _)| request(&mut chance, *call, &table, given)));
        let mut answers = driver.ask(&requests);
        let mut faults = vec![fault_alone(&case, &answers[0])];
        for (k, (_, _, outcome)) in case.tries.iter().enumerate() {
            faults.push(fault_of_try(&requests[k + 1], outcome, &answers[0], &answers[k + 1]));
        }
        if answers[0].status == 0 {
            let again = request(&mut chance, Call::ColumnHeads, &table, &solved_in(&answers[0], 1).additions);
            answers.extend(driver.ask(std::slice::from_ref(&again)));
            faults.push(fault_of_ties(&case, &answers[0], &again, &answers[answers.len() - 1]));
            requests.push(again);
        }
        if [0, 6].contains(&answers[0].status) {
            let (printed, fault) = print_case(driver, &mut chance, &case, &answers[0]);
            faults.push(fault);
            requests.push(printed);
        }
        for (fault, request) in faults.iter().zip(&requests).filter_map(|(f, r)| Some((f.as_ref()?, r))) {
            println!("vector {}: {fault}\n{}", case.name, request.describe());
            *failures += 1;
        }
        count += requests.len();
    }
    count
}
