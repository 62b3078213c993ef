//! Sheets: an independent reader, writer and printer, and random and mutated sheets.

use crate::chance::Chance;
use crate::oracle::{entry_stands, Truth};
use crate::table::{Solved, Table};
use crate::tables::{lent, random_table};
use crate::wire::{Answer, Call, Part, Request};

pub struct Labelled {
    pub table: Table,
    pub rows: Vec<Vec<u8>>,
    pub cols: Vec<Vec<u8>>,
}

/// The one sheet of a labelled table.
pub fn text(labelled: &Labelled) -> Vec<u8> {
    let n = labelled.table.n;
    let mut lines: Vec<Vec<u8>> = vec![format!("rows {n}").into_bytes()];
    lines.extend(labelled.rows.iter().cloned());
    lines.push(format!("cols {n}").into_bytes());
    lines.extend(labelled.cols.iter().cloned());
    let mut places = Vec::new();
    for i in 0..n {
        for j in 0..n {
            if let Some(order) = labelled.table.order(i, j) {
                places.push(format!("{} {} {}", i + 1, j + 1, order).into_bytes());
            }
        }
    }
    lines.push(format!("orders {}", places.len()).into_bytes());
    lines.extend(places);
    lines.into_iter().flat_map(|mut line| {
        line.push(b'\n');
        line
    }).collect()
}

/// The labelled table of a sheet, or its first wrong line.
pub fn read(sheet: &[u8]) -> Result<Labelled, usize> {
    let pieces: Vec<&[u8]> = sheet.split(|&b| b == b'\n').collect();
    // The last piece is what no line feed ends; it is no line, and a line sought there is missing or unended.
    let line = |k: usize| if k + 1 < pieces.len() { Ok(pieces[k]) } else { Err(k + 1) };
    let n = counted(line(0)?, b"rows ", 1, 32).ok_or(1usize)?;
    let rows = labels(&line, 1, n)?;
    counted(line(n + 1)?, b"cols ", n, n).ok_or(n + 2)?;
    let cols = labels(&line, n + 2, n)?;
    let first = 2 * n + 3;
    let count = counted(line(first - 1)?, b"orders ", 0, n * n).ok_or(first)?;
    let mut table = Table::empty(n);
    let mut free = 0;
    for k in first..first + count {
        let (place, order) = placed(line(k)?, n).filter(|&(place, _)| place >= free).ok_or(k + 1)?;
        table.entries[place] = order;
        free = place + 1;
    }
    let lines = first + count;
    if pieces.len() != lines + 1 || !pieces[lines].is_empty() {
        return Err(lines + 1);
    }
    let labelled = Labelled { table, rows, cols };
    assert!(text(&labelled) == sheet, "one table with labels has one sheet");
    Ok(labelled)
}

fn counted(line: &[u8], name: &[u8], low: usize, high: usize) -> Option<usize> {
    let count = natural(line.strip_prefix(name)?)?;
    (low <= count && count <= high).then_some(count)
}

/// A decimal number without leading zero, sign or blank.
fn natural(digits: &[u8]) -> Option<usize> {
    let value: usize = std::str::from_utf8(digits).ok()?.parse().ok()?;
    (value.to_string().as_bytes() == digits).then_some(value)
}

fn labels<'a>(
    line: &dyn Fn(usize) -> Result<&'a [u8], usize>,
    first: usize,
    n: usize,
) -> Result<Vec<Vec<u8>>, usize> {
    let mut found: Vec<Vec<u8>> = Vec::new();
    for k in first..first + n {
        let label = line(k)?.to_vec();
        if !label_stands(&label) || found.contains(&label) {
            return Err(k + 1);
        }
        found.push(label);
    }
    Ok(found)
}

fn label_stands(label: &[u8]) -> bool {
    (1..=8).contains(&label.len()) && label.iter().all(|b| b.is_ascii_alphanumeric())
}

/// The place, counted from 0 row by row, and the order of an order line.
fn placed(line: &[u8], n: usize) -> Option<(usize, i16)> {
    let fields: Vec<&[u8]> = line.split(|&b| b == b' ').collect();
    let [row, col, order] = fields[..] else { return None };
    let within = |v: &usize| (1..=n).contains(v);
    let i = natural(row).filter(within)?;
    let j = natural(col).filter(within)?;
    let value = match order.strip_prefix(b"-") {
        Some(digits) => -(natural(digits).filter(|&v| (1..=100).contains(&v))? as i16),
        None => natural(order).filter(|&v| v <= 100)? as i16,
    };
    Some(((i - 1) * n + j - 1, value))
}

/// Labels as the lent buffers hold them: 8 bytes each, filled up with zero bytes.
fn packed(labels: &[Vec<u8>]) -> Vec<u8> {
    labels.iter().flat_map(|label| {
        let mut slot = label.clone();
        slot.resize(8, 0);
        slot
    }).collect()
}

fn unpacked(slots: &[u8]) -> Option<Vec<Vec<u8>>> {
    let mut found: Vec<Vec<u8>> = Vec::new();
    for slot in slots.chunks(8) {
        let length = slot.iter().rposition(|&b| b != 0).map_or(0, |last| last + 1);
        let label = slot[..length].to_vec();
        if !label_stands(&label) || found.contains(&label) {
            return None;
        }
        found.push(label);
    }
    Some(found)
}

/// What the reader must answer.
pub fn expected_read(request: &Request) -> Answer {
    let wanted = [1024, 256, 256];
    if (0..3).any(|k| request.parts[k + 1].count() != wanted[k]) {
        return request.refused(2);
    }
    let sheet = &request.parts[0].bytes;
    if sheet.len() > 12_288 {
        return request.refused(9);
    }
    match read(sheet) {
        Err(line) => {
            let mut answer = request.refused(10);
            answer.parts[5] = Part::length(line as u64);
            answer
        }
        Ok(labelled) => {
            let mut answer = request.refused(0);
            answer.parts[1].write_front(&Part::orders(&labelled.table.entries).bytes);
            answer.parts[2].write_front(&packed(&labelled.rows));
            answer.parts[3].write_front(&packed(&labelled.cols));
            answer.parts[4] = Part::length(labelled.table.n as u64);
            answer
        }
    }
}

/// What the writer must answer.
pub fn expected_write(request: &Request) -> Answer {
    let n = request.n as usize;
    if request.n == 0 || request.n > 32 {
        return request.refused(1);
    }
    let wanted = [n * n, 8 * n, 8 * n];
    if (0..3).any(|k| request.parts[k].count() != wanted[k]) {
        return request.refused(2);
    }
    let entries = request.parts[0].as_orders();
    if entries.iter().any(|&entry| !entry_stands(entry)) {
        return request.refused(3);
    }
    let (Some(rows), Some(cols)) = (unpacked(&request.parts[1].bytes), unpacked(&request.parts[2].bytes)) else {
        return request.refused(11);
    };
    let sheet = text(&Labelled { table: Table { n, entries }, rows, cols });
    written(request, &sheet, 3)
}

/// The text at the front of part `out` and its length in the part after it, or refusal 12.
fn written(request: &Request, text: &[u8], out: usize) -> Answer {
    if text.len() > request.parts[out].count() {
        return request.refused(12);
    }
    let mut answer = request.refused(0);
    answer.parts[out].write_front(text);
    answer.parts[out + 1] = Part::length(text.len() as u64);
    answer
}

/// The program's answer as text, for a table small enough to try every transversal.
pub fn printed(sheet: &[u8]) -> String {
    if sheet.len() > 12_288 {
        return "refused 9\n".to_string();
    }
    match read(sheet) {
        Err(line) => format!("refused 10 {line}\n"),
        Ok(labelled) => page(&Truth::by_trying(labelled.table)),
    }
}

/// The same of a table whose answer is known.
pub fn page(truth: &Truth) -> String {
    truth.solved.as_ref().map_or("refused 6\n".to_string(), |solved| sections(&truth.table, solved))
}

fn sections(table: &Table, solved: &Solved) -> String {
    let ties = table.column_heads(&solved.additions);
    let index = table.index(&solved.additions);
    let section = |name: &str, values: Vec<String>| format!("{name} {}\n{}\n", values.len(), values.join("\n"));
    section("adds", solved.additions.iter().map(|v| v.to_string()).collect())
        + &section("stars", solved.stars.iter().map(|v| v.to_string()).collect())
        + &section("heads", solved.heads.iter().map(|v| v.to_string()).collect())
        + &section("ties", ties.iter().map(|column| column.count.to_string()).collect())
        + &section("sum", vec![solved.sum.to_string()])
        + &section("index", vec![index.to_string()])
}

/// What printing must answer.
pub fn expected_print(request: &Request) -> Answer {
    expected_page(request, &printed(&request.parts[0].bytes))
}

/// The same where the page is known.
pub fn expected_page(request: &Request, page: &str) -> Answer {
    written(request, page.as_bytes(), 1)
}

fn random_label(chance: &mut Chance) -> Vec<u8> {
    let letters = b"abcxyzABCXYZ0189";
    let few = chance.between(1, letters.len() as i64) as usize;
    let length = chance.between(1, 8);
    (0..length).map(|_| letters[chance.below(few)]).collect()
}

fn random_labels(chance: &mut Chance, n: usize) -> Vec<Vec<u8>> {
    let mut found: Vec<Vec<u8>> = Vec::new();
    while found.len() < n {
        let label = random_label(chance);
        if !found.contains(&label) {
            found.push(label);
        }
    }
    found
}

pub fn random_labelled(chance: &mut Chance, n: usize) -> Labelled {
    let table = random_table(chance, n);
    labelled(chance, table)
}

/// A table with random labels.
pub fn labelled(chance: &mut Chance, table: Table) -> Labelled {
    let n = table.n;
    Labelled { table, rows: random_labels(chance, n), cols: random_labels(chance, n) }
}

/// A sheet with one to three changes of bytes, lines or numbers.
pub fn mutated(chance: &mut Chance, sheet: &[u8]) -> Vec<u8> {
    let mut changed = sheet.to_vec();
    for _ in 0..chance.between(1, 3) {
        if changed.is_empty() {
            break;
        }
        match chance.below(3) {
            0 => change_byte(chance, &mut changed),
            1 => change_line(chance, &mut changed),
            _ => change_number(chance, &mut changed),
        }
    }
    changed
}

fn change_byte(chance: &mut Chance, sheet: &mut Vec<u8>) {
    let at = chance.below(sheet.len());
    let byte = chance.one_of(b"0123456789-+ \n\r\taZ_\0\xff/:@[`{");
    match chance.below(5) {
        0 => sheet[at] = byte,
        1 => sheet.insert(at, byte),
        2 => drop(sheet.remove(at)),
        3 => sheet.truncate(at),
        _ => sheet.push(byte),
    }
}

fn change_line(chance: &mut Chance, sheet: &mut Vec<u8>) {
    let mut lines: Vec<Vec<u8>> = sheet.split_inclusive(|&b| b == b'\n').map(|l| l.to_vec()).collect();
    let (a, b) = (chance.below(lines.len()), chance.below(lines.len()));
    match chance.below(5) {
        0 => lines.swap(a, b),
        1 => drop(lines.remove(a)),
        2 => lines.insert(a, lines[b].clone()),
        3 => lines.insert(a, b"\n".to_vec()),
        _ => lines[a] = lines[b].clone(),
    }
    *sheet = lines.concat();
}

/// One field of one line becomes another number, some of them just outside the limits or written otherwise.
fn change_number(chance: &mut Chance, sheet: &mut Vec<u8>) {
    let mut lines: Vec<Vec<u8>> = sheet.split_inclusive(|&b| b == b'\n').map(|l| l.to_vec()).collect();
    let a = chance.below(lines.len());
    let mut fields: Vec<Vec<u8>> = lines[a].split(|&b| b == b' ').map(|f| f.to_vec()).collect();
    let k = chance.below(fields.len());
    let numbers: [&[u8]; 21] = [
        b"0", b"1", b"2", b"3", b"31", b"32", b"33", b"100", b"101", b"-1", b"-0", b"-100", b"-101", b"007", b"+1", b"1024",
        b"1025", b"18446744073709551617", b"4294967297", b"", b"-",
    ];
    fields[k] = chance.one_of(&numbers).to_vec();
    if k + 1 == fields.len() {
        fields[k].push(b'\n');
    }
    lines[a] = fields.join(&b' ');
    *sheet = lines.concat();
}

/// A request of the reader, now and then with a wrong length or a sheet too long.
pub fn read_request(chance: &mut Chance, sheet: &[u8]) -> Request {
    let mut lengths = [1024, 256, 256];
    if chance.once_in(1, 12) {
        let k = chance.below(3);
        lengths[k] = chance.one_of(&[0, lengths[k] - 1, lengths[k] + 1, 8, 9]);
    }
    let mut sheet = sheet.to_vec();
    if chance.once_in(1, 30) {
        let length = chance.one_of(&[12_287, 12_288, 12_289, 12_290, 13_000]);
        while sheet.len() < length {
            sheet.push(chance.one_of(b"\n1 a"));
        }
    }
    let mut parts = vec![Part::text(&sheet), lent(chance, 2, lengths[0]), lent(chance, 1, lengths[1])];
    parts.extend([lent(chance, 1, lengths[2]), lent(chance, 8, 1), lent(chance, 8, 1)]);
    Request { call: Call::ReadSheet, n: 0, parts }
}

/// A request of the writer, now and then with something wrong.
pub fn write_request(chance: &mut Chance, labelled: &Labelled) -> Request {
    let n = labelled.table.n;
    let length = text(labelled).len();
    let room = chance.one_of(&[length, length, length + 1, length + 100, 12_288, length - 1, length / 2, 0]);
    let mut parts = vec![Part::orders(&labelled.table.entries), Part::text(&packed(&labelled.rows))];
    parts.extend([Part::text(&packed(&labelled.cols)), lent(chance, 1, room), lent(chance, 8, 1)]);
    let mut request = Request { call: Call::WriteSheet, n: n as u64, parts };
    if chance.once_in(1, 2) {
        spoil_write(chance, &mut request);
    }
    request
}

fn spoil_write(chance: &mut Chance, request: &mut Request) {
    for _ in 0..chance.between(1, 2) {
        match chance.below(6) {
            0 => request.n = chance.one_of(&[0, 33, 1 << 32, u64::MAX, request.n + 1]),
            1 => {
                let part = &mut request.parts[chance.below(3)];
                let count = chance.one_of(&[0, part.count().saturating_sub(1), part.count() + 1]);
                part.bytes.resize(count * part.size, b'a');
            }
            2 => {
                let at = chance.below(request.parts[0].bytes.len().max(1));
                if let Some(byte) = request.parts[0].bytes.get_mut(at) {
                    *byte = chance.next() as u8;
                }
            }
            _ => {
                let section = chance.one_of(&[1, 2]);
                spoil_label(chance, &mut request.parts[section].bytes);
            }
        }
    }
}

fn spoil_label(chance: &mut Chance, slots: &mut [u8]) {
    if slots.is_empty() {
        return;
    }
    let at = chance.below(slots.len());
    match chance.below(3) {
        0 => slots[at] = chance.one_of(b"\0\0 -_\n/:@[`{\x80\xffa"),
        1 => slots[at / 8 * 8..].iter_mut().take(8).for_each(|b| *b = 0),
        _ => {
            let other = chance.below(slots.len()) / 8 * 8;
            let copy: Vec<u8> = slots[other..].iter().take(8).copied().collect();
            let to = at / 8 * 8;
            let count = copy.len().min(slots.len() - to);
            slots[to..to + count].copy_from_slice(&copy[..count]);
        }
    }
}

/// Room enough for every printed answer: CANON_PRINTED of canon.h.
pub const PRINTED: usize = 4000;

/// A request of the printer with rooms of many lengths, that of the answer and one byte less among them.
pub fn print_request(chance: &mut Chance, sheet: &[u8], length: usize) -> Request {
    let room = chance.one_of(&[PRINTED, PRINTED, length, length, length - 1, length / 2, 9, 0]);
    roomy_request(chance, sheet, room)
}

/// A request of the printer with a room of that length.
pub fn roomy_request(chance: &mut Chance, sheet: &[u8], room: usize) -> Request {
    Request { call: Call::Print, n: 0, parts: vec![Part::text(sheet), lent(chance, 1, room), lent(chance, 8, 1)] }
}
