//! An ordinary implementation of the same answers, written for speed and proved by nobody: shortest augmenting paths for
//! the greatest sum, the fixed point for the additions, and a search from row to row for the first stars.

const ROWS: usize = 32;
const ABSENT: i16 = -32768;
const FAR: i32 = i32::MAX / 2;

pub struct Answer {
    pub additions: [u32; ROWS],
    pub stars: [u32; ROWS],
    pub heads: [i32; ROWS],
    pub sum: i32,
}

fn check(n: usize, table: &[i16]) -> Result<(), u32> {
    if n == 0 || n > ROWS {
        return Err(1);
    }
    if table.len() != n * n {
        return Err(2);
    }
    if table.iter().any(|&v| v != ABSENT && !(-100..=100).contains(&v)) {
        return Err(3);
    }
    Ok(())
}

/// The columns of a transversal of greatest sum: rows are added one by one along shortest augmenting paths.
fn assignment(n: usize, table: &[i16]) -> Option<[usize; ROWS]> {
    let mut row_dual = [0i32; ROWS + 1];
    let mut column_dual = [0i32; ROWS + 1];
    let mut row_of = [n; ROWS + 1];
    for i in 0..n {
        row_of[n] = i;
        let mut at = n;
        let mut near = [FAR; ROWS + 1];
        let mut from = [n; ROWS + 1];
        let mut used = [false; ROWS + 1];
        loop {
            used[at] = true;
            let row = row_of[at];
            let orders = &table[row * n..row * n + n];
            let (mut least, mut next) = (FAR, n);
            for j in 0..n {
                if used[j] {
                    continue;
                }
                if orders[j] != ABSENT {
                    let cost = -(orders[j] as i32) - row_dual[row] - column_dual[j];
                    if cost < near[j] {
                        near[j] = cost;
                        from[j] = at;
                    }
                }
                if near[j] < least {
                    least = near[j];
                    next = j;
                }
            }
            if least == FAR {
                return None;
            }
            for j in 0..=n {
                if used[j] {
                    row_dual[row_of[j]] += least;
                    column_dual[j] -= least;
                } else if near[j] != FAR {
                    near[j] -= least;
                }
            }
            at = next;
            if row_of[at] == n {
                break;
            }
        }
        while at != n {
            row_of[at] = row_of[from[at]];
            at = from[at];
        }
    }
    let mut columns = [0; ROWS];
    for j in 0..n {
        columns[row_of[j]] = j;
    }
    Some(columns)
}

/// The least additions that make every place of the transversal a column maximum; nothing if its sum is not the greatest.
fn fixed_point(n: usize, table: &[i16], columns: &[usize; ROWS]) -> Option<[u32; ROWS]> {
    let mut additions = [0i32; ROWS];
    for _ in 0..=n {
        let mut still = true;
        for i in 0..n {
            let j = columns[i];
            let mut head = i32::MIN;
            for k in 0..n {
                let order = table[k * n + j];
                if order != ABSENT {
                    head = head.max(order as i32 + additions[k]);
                }
            }
            let wanted = head - table[i * n + j] as i32;
            if wanted > additions[i] {
                additions[i] = wanted;
                still = false;
            }
        }
        if still {
            return Some(additions.map(|a| a as u32));
        }
    }
    None
}

fn heads_of(n: usize, table: &[i16], additions: &[u32; ROWS]) -> [i32; ROWS] {
    let mut heads = [i32::MIN; ROWS];
    for i in 0..n {
        let orders = &table[i * n..i * n + n];
        for j in 0..n {
            if orders[j] != ABSENT {
                heads[j] = heads[j].max(orders[j] as i32 + additions[i] as i32);
            }
        }
    }
    if n < ROWS {
        heads[n..].fill(0);
    }
    heads
}

/// Of each column the head, the lowest row that holds it, from 1, and how many rows do; all 0 where no order is present.
pub struct Columns {
    pub heads: [i32; ROWS],
    pub rows: [u32; ROWS],
    pub counts: [u32; ROWS],
}

fn columns_of(n: usize, table: &[i16], additions: &[u32]) -> Columns {
    let mut found = Columns { heads: [0; ROWS], rows: [0; ROWS], counts: [0; ROWS] };
    for i in 0..n {
        let orders = &table[i * n..i * n + n];
        for j in 0..n {
            if orders[j] == ABSENT {
                continue;
            }
            let raised = orders[j] as i32 + additions[i] as i32;
            if found.counts[j] == 0 || raised > found.heads[j] {
                found.heads[j] = raised;
                found.rows[j] = i as u32 + 1;
                found.counts[j] = 1;
            } else if raised == found.heads[j] {
                found.counts[j] += 1;
            }
        }
    }
    found
}

/// The heads of columns under additions.
#[inline(never)]
pub fn column_heads(n: usize, table: &[i16], given: &[u32]) -> Result<Columns, u32> {
    check(n, table)?;
    if given.len() != n {
        return Err(2);
    }
    if given.iter().any(|&a| a > 10_000) {
        return Err(4);
    }
    Ok(columns_of(n, table, given))
}

/// The column maxima of each row, as bits.
fn maxima(n: usize, table: &[i16], additions: &[u32; ROWS], heads: &[i32; ROWS]) -> [u32; ROWS] {
    let mut bits = [0u32; ROWS];
    for i in 0..n {
        let orders = &table[i * n..i * n + n];
        for j in 0..n {
            if orders[j] != ABSENT && orders[j] as i32 + additions[i] as i32 == heads[j] {
                bits[i] |= 1 << j;
            }
        }
    }
    bits
}

/// Row k finds another column, if it can, so that the column `wanted` is left free.
fn reroute(bits: &[u32; ROWS], row_of: &mut [usize; ROWS], columns: &mut [usize; ROWS], seen: &mut u32, k: usize, wanted: usize) -> bool {
    let mut open = bits[k] & !*seen;
    while open != 0 {
        let j = open.trailing_zeros() as usize;
        *seen |= 1 << j;
        if j == wanted || reroute(bits, row_of, columns, seen, row_of[j], wanted) {
            columns[k] = j;
            row_of[j] = k;
            return true;
        }
        open = bits[k] & !*seen;
    }
    false
}

fn first_stars(n: usize, bits: &[u32; ROWS], columns: &mut [usize; ROWS]) {
    let mut row_of = [0; ROWS];
    for i in 0..n {
        row_of[columns[i]] = i;
    }
    let mut taken = 0u32;
    for i in 0..n {
        let own = columns[i];
        let mut earlier = bits[i] & !taken & ((1u32 << own) - 1);
        while earlier != 0 {
            let j = earlier.trailing_zeros() as usize;
            earlier &= earlier - 1;
            let owner = row_of[j];
            let mut seen = taken | 1 << j;
            if reroute(bits, &mut row_of, columns, &mut seen, owner, own) {
                columns[i] = j;
                row_of[j] = i;
                break;
            }
        }
        taken |= 1 << columns[i];
    }
}

fn complete(n: usize, table: &[i16], additions: [u32; ROWS], mut columns: [usize; ROWS]) -> Answer {
    let heads = heads_of(n, table, &additions);
    let bits = maxima(n, table, &additions, &heads);
    first_stars(n, &bits, &mut columns);
    let sum = (0..n).map(|i| table[i * n + columns[i]] as i32).sum();
    let stars = columns.map(|j| j as u32 + 1);
    Answer { additions, stars, heads, sum }
}

/// Route 1: from the table alone.
#[inline(never)]
pub fn solve(n: usize, table: &[i16]) -> Result<Answer, u32> {
    check(n, table)?;
    let columns = assignment(n, table).ok_or(6u32)?;
    let additions = fixed_point(n, table, &columns).ok_or(6u32)?;
    Ok(complete(n, table, additions, columns))
}

/// Route 2: from additions that are a canon.
#[inline(never)]
pub fn from_canon(n: usize, table: &[i16], given: &[u32]) -> Result<Answer, u32> {
    let columns = maxima_columns(n, table, given)?;
    let additions = fixed_point(n, table, &columns).ok_or(7u32)?;
    Ok(complete(n, table, additions, columns))
}

/// Are additions that are a canon the simplest one?
#[inline(never)]
pub fn is_simplest(n: usize, table: &[i16], given: &[u32]) -> Result<bool, u32> {
    let columns = maxima_columns(n, table, given)?;
    let additions = fixed_point(n, table, &columns).ok_or(7u32)?;
    Ok(additions[..n] == *given)
}

/// The columns of some transversal of column maxima under additions, which are a canon if there is one.
fn maxima_columns(n: usize, table: &[i16], given: &[u32]) -> Result<[usize; ROWS], u32> {
    check(n, table)?;
    if given.len() != n {
        return Err(2);
    }
    if given.iter().any(|&a| a > 10_000) {
        return Err(4);
    }
    let mut additions = [0; ROWS];
    additions[..n].copy_from_slice(given);
    let heads = heads_of(n, table, &additions);
    let bits = maxima(n, table, &additions, &heads);
    matching(n, &bits).ok_or_else(|| if assignment(n, table).is_some() { 7 } else { 6 })
}

fn matching(n: usize, bits: &[u32; ROWS]) -> Option<[usize; ROWS]> {
    let mut row_of = [ROWS; ROWS];
    for i in 0..n {
        let mut seen = 0;
        if !place(bits, &mut row_of, &mut seen, i) {
            return None;
        }
    }
    let mut columns = [0; ROWS];
    for j in 0..n {
        columns[row_of[j]] = j;
    }
    Some(columns)
}

fn place(bits: &[u32; ROWS], row_of: &mut [usize; ROWS], seen: &mut u32, i: usize) -> bool {
    let mut open = bits[i] & !*seen;
    while open != 0 {
        let j = open.trailing_zeros() as usize;
        *seen |= 1 << j;
        if row_of[j] == ROWS || place(bits, row_of, seen, row_of[j]) {
            row_of[j] = i;
            return true;
        }
        open = bits[i] & !*seen;
    }
    false
}

/// Route 3: from a transversal of greatest sum.
#[inline(never)]
pub fn from_stars(n: usize, table: &[i16], given: &[u32]) -> Result<Answer, u32> {
    check(n, table)?;
    if given.len() != n {
        return Err(2);
    }
    let mut columns = [0; ROWS];
    let mut taken = 0u64;
    for i in 0..n {
        let star = given[i] as usize;
        if star == 0 || star > n || taken >> star & 1 == 1 {
            return Err(5);
        }
        taken |= 1 << star;
        columns[i] = star - 1;
    }
    let present = (0..n).all(|i| table[i * n + columns[i]] != ABSENT);
    let found = if present { fixed_point(n, table, &columns) } else { None };
    let Some(additions) = found else {
        return Err(if assignment(n, table).is_some() { 8 } else { 6 });
    };
    Ok(complete(n, table, additions, columns))
}

pub struct Sheet {
    pub n: usize,
    pub table: [i16; 1024],
    pub rows: [u8; 256],
    pub cols: [u8; 256],
}

/// One line after the other, each without its line feed.
struct Lines<'a> {
    rest: &'a [u8],
    number: usize,
}

impl<'a> Lines<'a> {
    fn next(&mut self) -> Result<&'a [u8], usize> {
        self.number += 1;
        let end = self.rest.iter().position(|&b| b == b'\n').ok_or(self.number)?;
        let line = &self.rest[..end];
        self.rest = &self.rest[end + 1..];
        Ok(line)
    }
}

fn natural(digits: &[u8]) -> Option<usize> {
    if digits.is_empty() || digits.len() > 5 || (digits[0] == b'0' && digits.len() > 1) {
        return None;
    }
    digits.iter().try_fold(0, |v, &b| if b.is_ascii_digit() { Some(v * 10 + (b - b'0') as usize) } else { None })
}

fn labels(lines: &mut Lines, n: usize, into: &mut [u8; 256]) -> Result<(), usize> {
    for k in 0..n {
        let label = lines.next()?;
        if label.is_empty() || label.len() > 8 || !label.iter().all(|b| b.is_ascii_alphanumeric()) {
            return Err(lines.number);
        }
        let mut slot = [0u8; 8];
        slot[..label.len()].copy_from_slice(label);
        if into[..8 * k].chunks_exact(8).any(|other| other == slot) {
            return Err(lines.number);
        }
        into[8 * k..8 * k + 8].copy_from_slice(&slot);
    }
    Ok(())
}

fn place_of(line: &[u8], n: usize) -> Option<(usize, i16)> {
    let mut fields = line.split(|&b| b == b' ');
    let i = natural(fields.next()?).filter(|v| (1..=n).contains(v))?;
    let j = natural(fields.next()?).filter(|v| (1..=n).contains(v))?;
    let last = fields.next()?;
    if fields.next().is_some() {
        return None;
    }
    let order = match last.strip_prefix(b"-") {
        Some(digits) => -(natural(digits).filter(|v| (1..=100).contains(v))? as i16),
        None => natural(last).filter(|&v| v <= 100)? as i16,
    };
    Some(((i - 1) * n + j - 1, order))
}

/// The sheet's table and labels, or its first wrong line (0 where it is too long).
#[inline(never)]
pub fn read(sheet: &[u8]) -> Result<Sheet, usize> {
    if sheet.len() > 12288 {
        return Err(0);
    }
    let mut lines = Lines { rest: sheet, number: 0 };
    let counted = |line: &[u8], name: &[u8]| line.strip_prefix(name).and_then(natural);
    let n = counted(lines.next()?, b"rows ").filter(|n| (1..=ROWS).contains(n)).ok_or(1usize)?;
    let mut found = Sheet { n, table: [ABSENT; 1024], rows: [0; 256], cols: [0; 256] };
    labels(&mut lines, n, &mut found.rows)?;
    counted(lines.next()?, b"cols ").filter(|&m| m == n).ok_or(lines.number)?;
    labels(&mut lines, n, &mut found.cols)?;
    let count = counted(lines.next()?, b"orders ").filter(|&k| k <= n * n).ok_or(lines.number)?;
    let mut free = 0;
    for _ in 0..count {
        let (at, order) = place_of(lines.next()?, n).filter(|&(at, _)| at >= free).ok_or(lines.number)?;
        found.table[at] = order;
        free = at + 1;
    }
    if lines.rest.is_empty() { Ok(found) } else { Err(lines.number + 1) }
}

fn put_number(out: &mut Vec<u8>, value: usize) {
    let mut digits = [0u8; 20];
    let mut at = 20;
    let mut left = value;
    loop {
        at -= 1;
        digits[at] = b'0' + (left % 10) as u8;
        left /= 10;
        if left == 0 {
            break;
        }
    }
    out.extend_from_slice(&digits[at..]);
}

fn put_labels(out: &mut Vec<u8>, name: &[u8], n: usize, slots: &[u8]) -> Result<(), u32> {
    out.extend_from_slice(name);
    put_number(out, n);
    out.push(b'\n');
    for (k, slot) in slots.chunks_exact(8).enumerate() {
        let length = slot.iter().position(|&b| b == 0).unwrap_or(8);
        let fits = length > 0
            && slot[..length].iter().all(|b| b.is_ascii_alphanumeric())
            && slot[length..].iter().all(|&b| b == 0);
        if !fits || slots[..8 * k].chunks_exact(8).any(|other| other == slot) {
            return Err(11);
        }
        out.extend_from_slice(&slot[..length]);
        out.push(b'\n');
    }
    Ok(())
}

/// The sheet of a labelled table, into the buffer given, which is emptied first.
#[inline(never)]
pub fn write(n: usize, table: &[i16], rows: &[u8], cols: &[u8], room: usize, out: &mut Vec<u8>) -> Result<usize, u32> {
    check(n, table)?;
    if rows.len() != 8 * n || cols.len() != 8 * n {
        return Err(2);
    }
    out.clear();
    put_labels(out, b"rows ", n, rows)?;
    put_labels(out, b"cols ", n, cols)?;
    out.extend_from_slice(b"orders ");
    put_number(out, table.iter().filter(|&&v| v != ABSENT).count());
    out.push(b'\n');
    for i in 0..n {
        for j in 0..n {
            let order = table[i * n + j];
            if order == ABSENT {
                continue;
            }
            put_number(out, i + 1);
            out.push(b' ');
            put_number(out, j + 1);
            out.push(b' ');
            if order < 0 {
                out.push(b'-');
            }
            put_number(out, order.unsigned_abs() as usize);
            out.push(b'\n');
        }
    }
    if out.len() > room { Err(12) } else { Ok(out.len()) }
}

fn put_section(out: &mut Vec<u8>, name: &[u8], values: impl ExactSizeIterator<Item = i32>) {
    out.extend_from_slice(name);
    put_number(out, values.len());
    out.push(b'\n');
    for value in values {
        if value < 0 {
            out.push(b'-');
        }
        put_number(out, value.unsigned_abs() as usize);
        out.push(b'\n');
    }
}

fn put_refusal(out: &mut Vec<u8>, number: usize, line: Option<usize>) {
    out.extend_from_slice(b"refused ");
    put_number(out, number);
    if let Some(line) = line {
        out.push(b' ');
        put_number(out, line);
    }
    out.push(b'\n');
}

/// Pryce's index; in a table with a negative order the largest addition.
fn index_of(n: usize, table: &[i16], answer: &Answer) -> i32 {
    let largest = answer.additions[..n].iter().max().map_or(0, |&addition| addition as i32);
    if table.iter().any(|&order| order != ABSENT && order < 0) {
        return largest;
    }
    largest + answer.heads[..n].contains(&0) as i32
}

/// The printed answer to a sheet, into the buffer given, which is emptied first.
#[inline(never)]
pub fn print(sheet: &[u8], out: &mut Vec<u8>) {
    out.clear();
    let sheet = match read(sheet) {
        Ok(sheet) => sheet,
        Err(0) => return put_refusal(out, 9, None),
        Err(line) => return put_refusal(out, 10, Some(line)),
    };
    let n = sheet.n;
    match solve(n, &sheet.table[..n * n]) {
        Ok(answer) => {
            let ties = columns_of(n, &sheet.table[..n * n], &answer.additions).counts;
            put_section(out, b"adds ", answer.additions[..n].iter().map(|&a| a as i32));
            put_section(out, b"stars ", answer.stars[..n].iter().map(|&j| j as i32));
            put_section(out, b"heads ", answer.heads[..n].iter().copied());
            put_section(out, b"ties ", ties[..n].iter().map(|&c| c as i32));
            put_section(out, b"sum ", [answer.sum].into_iter());
            put_section(out, b"index ", [index_of(n, &sheet.table[..n * n], &answer)].into_iter());
        }
        Err(number) => put_refusal(out, number as usize, None),
    }
}
