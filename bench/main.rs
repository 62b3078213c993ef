//! Times the library's calls beside an ordinary implementation of the same answers, in one run.
//!
//! bench times [CALL]: the times in microseconds, the library's and the ordinary ones, each the median of repeats and of
//! the processor's time alone. bench beside CALL..: the same of these calls with an older archive in the place of the ordinary
//! program. The answers of the two are compared first; where they are not the same, a word behind the times says so. bench
//! stack: the stack that each call uses. bench count CALL KIND N WHO: the call on every table once, inside the function
//! `counted`, for callgrind. bench tables: how many tables that is. bench spin CALL KIND N WHO: the same many times over,
//! for a sampling profiler. bench dump: the tables themselves. bench turns: for each kind and size on standard input the
//! time of one repeat of `solve`, so that another program can take turns with this one.

mod ordinary;

const ABSENT: i16 = -32768;
const TABLES: usize = 24;
const REPEATS: usize = 15;
const CALLS: [&str; 8] = ["solve", "from_canon", "from_stars", "is_simplest", "column_heads", "read_sheet", "write_sheet", "print"];
const KINDS: [&str; 6] = ["full", "small", "sparse", "staircase", "regular-stairs", "two-valued"];
const SIZES: [usize; 3] = [8, 16, 32];

extern "C" {
    fn clock_gettime(clock: i32, time: *mut [i64; 2]) -> i32;
    fn _exit(status: i32) -> !;
}

struct Chance(u64);

impl Chance {
    fn between(&mut self, low: i64, high: i64) -> i64 {
        self.0 = self.0.wrapping_mul(6364136223846793005).wrapping_add(1442695040888963407);
        low + ((self.0 >> 33) % (high - low + 1) as u64) as i64
    }
}

/// One input with all that the calls want.
struct Job {
    n: usize,
    table: Vec<i16>,
    canon: Vec<u32>,
    /// What the yes-or-no and the heads of columns are handed: the simplest canon in some jobs, another in the rest.
    asked: Vec<u32>,
    stars: Vec<u32>,
    rows: Vec<u8>,
    cols: Vec<u8>,
    sheet: Vec<u8>,
}

/// The room that the calls write.
struct Room {
    adds: [u32; 32],
    stars: [u32; 32],
    heads: [i32; 32],
    lowest: [u32; 32],
    counts: [u32; 32],
    sum: i32,
    yes: u8,
    table: Vec<i16>,
    rows: [u8; 256],
    cols: [u8; 256],
    out: Vec<u8>,
    n: usize,
    line: usize,
    text: Vec<u8>,
}

impl Room {
    fn new() -> Room {
        Room {
            adds: [0; 32],
            stars: [0; 32],
            heads: [0; 32],
            lowest: [0; 32],
            counts: [0; 32],
            sum: 0,
            yes: 0,
            table: vec![0; 1024],
            rows: [0; 256],
            cols: [0; 256],
            out: vec![0; 12288],
            n: 0,
            line: 0,
            text: Vec::with_capacity(12288),
        }
    }
}

/// A table of a kind. Regular stairs have no chance in them: all of a size are the same.
fn random_table(chance: &mut Chance, kind: &str, n: usize) -> Vec<i16> {
    let mut table = vec![ABSENT; n * n];
    if kind == "staircase" {
        return staircase(chance, n);
    }
    let turn = chance.between(0, n as i64 - 1) as usize;
    for i in 0..n {
        for j in 0..n {
            table[i * n + j] = match kind {
                "full" => chance.between(-100, 100) as i16,
                "small" => chance.between(0, 3) as i16,
                "regular-stairs" if j <= i => 100 - (i % 3) as i16,
                "two-valued" if chance.between(1, n as i64) == 1 => 100,
                "regular-stairs" | "two-valued" => -100,
                _ if (i + turn) % n == j || chance.between(1, 4) == 1 => chance.between(-100, 100) as i16,
                _ => ABSENT,
            };
        }
    }
    table
}

/// Each row forces the next one up by 200: the additions reach (N − 1) × 200. Rows and columns stand in a random order.
fn staircase(chance: &mut Chance, n: usize) -> Vec<i16> {
    let mut order: Vec<usize> = (0..n).collect();
    for i in (1..n).rev() {
        order.swap(i, chance.between(0, i as i64) as usize);
    }
    let mut table = vec![ABSENT; n * n];
    for i in 0..n {
        table[order[i] * n + (i + 3) % n] = -100;
        if i + 1 < n {
            table[order[i] * n + (i + 4) % n] = 100;
        }
    }
    table
}

/// The least canon above random floors.
fn some_canon(chance: &mut Chance, n: usize, table: &[i16], stars: &[u32]) -> Vec<u32> {
    let mut canon: Vec<i64> = (0..n).map(|_| chance.between(0, 50)).collect();
    for _ in 0..=n {
        for i in 0..n {
            let j = stars[i] as usize - 1;
            let own = table[i * n + j] as i64;
            let column = (0..n).filter(|&k| table[k * n + j] != ABSENT);
            canon[i] = column.map(|k| table[k * n + j] as i64 + canon[k] - own).max().unwrap_or(0);
        }
    }
    canon.iter().map(|&a| a as u32).collect()
}

fn labels(first: u8, n: usize) -> Vec<u8> {
    (0..n as u8).flat_map(|k| [first, b'a' + k / 10, b'0' + k % 10, b'x', b'y', b'z', 0, 0]).collect()
}

fn job(chance: &mut Chance, kind: &str, n: usize) -> Job {
    loop {
        let table = random_table(chance, kind, n);
        let Ok(answer) = ordinary::solve(n, &table) else { continue };
        let stars = answer.stars[..n].to_vec();
        let canon = some_canon(chance, n, &table, &stars);
        let asked = if canon[0] % 2 == 0 { answer.additions[..n].to_vec() } else { canon.clone() };
        let (rows, cols) = (labels(b'r', n), labels(b'c', n));
        let mut sheet = Vec::new();
        ordinary::write(n, &table, &rows, &cols, 12288, &mut sheet).expect("a sheet");
        return Job { n, table, canon, asked, stars, rows, cols, sheet };
    }
}

fn jobs(kind: &str, n: usize) -> Vec<Job> {
    let mut chance = Chance(20 + n as u64);
    (0..TABLES).map(|_| job(&mut chance, kind, n)).collect()
}

type Caller = fn(&str, &Job, &mut Room) -> u32;

/// What is measured: the heads of columns have a function of their own, so that it is not seen in the instructions and the
/// stack of the other calls, which stay comparable with older runs.
struct Program {
    calls: Caller,
    columns: Caller,
}

impl Program {
    fn caller(&self, call: &str) -> Caller {
        if call == "column_heads" { self.columns } else { self.calls }
    }
}

/// The calls of an archive whose functions have these names.
#[rustfmt::skip]
macro_rules! archive {
    ($caller:ident, $columns:ident: $solve:ident, $from_canon:ident, $from_stars:ident, $is_simplest:ident, $column_heads:ident,
        $read_sheet:ident, $write_sheet:ident, $print:ident) => {
        extern "C" {
            fn $solve(n: usize, table: *const i16, table_len: usize, adds: *mut u32, adds_len: usize,
                stars: *mut u32, stars_len: usize, heads: *mut i32, heads_len: usize, sum: *mut i32) -> u32;
            fn $from_canon(n: usize, table: *const i16, table_len: usize, given: *const u32, given_len: usize,
                adds: *mut u32, adds_len: usize, stars: *mut u32, stars_len: usize, heads: *mut i32, heads_len: usize,
                sum: *mut i32) -> u32;
            fn $from_stars(n: usize, table: *const i16, table_len: usize, given: *const u32, given_len: usize,
                adds: *mut u32, adds_len: usize, stars: *mut u32, stars_len: usize, heads: *mut i32, heads_len: usize,
                sum: *mut i32) -> u32;
            fn $is_simplest(n: usize, table: *const i16, table_len: usize, given: *const u32, given_len: usize,
                yes: *mut u8) -> u32;
            fn $column_heads(n: usize, table: *const i16, table_len: usize, given: *const u32, given_len: usize,
                heads: *mut i32, heads_len: usize, rows: *mut u32, rows_len: usize, counts: *mut u32, counts_len: usize) -> u32;
            fn $read_sheet(sheet: *const u8, sheet_len: usize, table: *mut i16, table_len: usize,
                rows: *mut u8, rows_len: usize, cols: *mut u8, cols_len: usize, n: *mut usize, line: *mut usize) -> u32;
            fn $write_sheet(n: usize, table: *const i16, table_len: usize, rows: *const u8, rows_len: usize,
                cols: *const u8, cols_len: usize, out: *mut u8, out_len: usize, length: *mut usize) -> u32;
            fn $print(sheet: *const u8, sheet_len: usize, out: *mut u8, out_len: usize, length: *mut usize) -> u32;
        }

        #[inline(never)]
        fn $caller(call: &str, job: &Job, room: &mut Room) -> u32 {
            let n = job.n;
            let (table, sheet) = (job.table.as_ptr(), job.sheet.as_ptr());
            let (adds, stars, heads) = (room.adds.as_mut_ptr(), room.stars.as_mut_ptr(), room.heads.as_mut_ptr());
            let (rows, cols, out) = (room.rows.as_mut_ptr(), room.cols.as_mut_ptr(), room.out.as_mut_ptr());
            // Safety: each pointer is to as many elements as are said, and nothing that is written overlaps anything else.
            unsafe {
                match call {
                    "solve" => $solve(n, table, n * n, adds, n, stars, n, heads, n, &mut room.sum),
                    "from_canon" => $from_canon(n, table, n * n, job.canon.as_ptr(), n, adds, n, stars, n, heads, n, &mut room.sum),
                    "from_stars" => $from_stars(n, table, n * n, job.stars.as_ptr(), n, adds, n, stars, n, heads, n, &mut room.sum),
                    "is_simplest" => $is_simplest(n, table, n * n, job.asked.as_ptr(), n, &mut room.yes),
                    "read_sheet" => $read_sheet(sheet, job.sheet.len(), room.table.as_mut_ptr(), 1024, rows, 256, cols, 256,
                        &mut room.n, &mut room.line),
                    "print" => $print(sheet, job.sheet.len(), out, 12288, &mut room.line),
                    _ => $write_sheet(n, table, n * n, job.rows.as_ptr(), 8 * n, job.cols.as_ptr(), 8 * n, out, 12288, &mut room.line),
                }
            }
        }

        #[inline(never)]
        fn $columns(_: &str, job: &Job, room: &mut Room) -> u32 {
            let (n, heads, rows, counts) = (job.n, room.heads.as_mut_ptr(), room.lowest.as_mut_ptr(), room.counts.as_mut_ptr());
            // Safety: as above.
            unsafe { $column_heads(n, job.table.as_ptr(), n * n, job.asked.as_ptr(), n, heads, n, rows, n, counts, n) }
        }
    };
}

archive!(library, library_columns: canon_solve, canon_from_canon, canon_from_stars, canon_is_simplest, canon_column_heads,
    canon_read_sheet, canon_write_sheet, canon_print);
const LIBRARY: Program = Program { calls: library, columns: library_columns };

// An older archive, with other names, where `bench/run beside` links one. A call that it lacks is linked to this library's, and not made.
#[cfg(beside)]
archive!(older, older_columns: older_solve, older_from_canon, older_from_stars, older_is_simplest, older_column_heads,
    older_read_sheet, older_write_sheet, older_print);
#[cfg(beside)]
const OLDER: Program = Program { calls: older, columns: older_columns };

fn keep(answer: Result<ordinary::Answer, u32>, n: usize, room: &mut Room) -> u32 {
    match answer {
        Ok(answer) => {
            room.adds[..n].copy_from_slice(&answer.additions[..n]);
            room.stars[..n].copy_from_slice(&answer.stars[..n]);
            room.heads[..n].copy_from_slice(&answer.heads[..n]);
            room.sum = answer.sum;
            0
        }
        Err(number) => number,
    }
}

/// The ordinary implementation's.
#[inline(never)]
fn ordinary_call(call: &str, job: &Job, room: &mut Room) -> u32 {
    let n = job.n;
    match call {
        "solve" => keep(ordinary::solve(n, &job.table), n, room),
        "from_canon" => keep(ordinary::from_canon(n, &job.table, &job.canon), n, room),
        "from_stars" => keep(ordinary::from_stars(n, &job.table, &job.stars), n, room),
        "is_simplest" => match ordinary::is_simplest(n, &job.table, &job.asked) {
            Ok(yes) => {
                room.yes = yes as u8;
                0
            }
            Err(number) => number,
        },
        "print" => {
            ordinary::print(&job.sheet, &mut room.text);
            room.line = room.text.len();
            room.out[..room.line].copy_from_slice(&room.text);
            0
        }
        "read_sheet" => match ordinary::read(&job.sheet) {
            Ok(sheet) => {
                room.n = sheet.n;
                room.table[..n * n].copy_from_slice(&sheet.table[..n * n]);
                room.rows[..8 * n].copy_from_slice(&sheet.rows[..8 * n]);
                room.cols[..8 * n].copy_from_slice(&sheet.cols[..8 * n]);
                0
            }
            Err(_) => 10,
        },
        _ => match ordinary::write(n, &job.table, &job.rows, &job.cols, 12288, &mut room.text) {
            Ok(length) => {
                room.line = length;
                room.out[..length].copy_from_slice(&room.text);
                0
            }
            Err(number) => number,
        },
    }
}

#[inline(never)]
fn ordinary_columns(_: &str, job: &Job, room: &mut Room) -> u32 {
    let n = job.n;
    match ordinary::column_heads(n, &job.table, &job.asked) {
        Ok(columns) => {
            room.heads[..n].copy_from_slice(&columns.heads[..n]);
            room.lowest[..n].copy_from_slice(&columns.rows[..n]);
            room.counts[..n].copy_from_slice(&columns.counts[..n]);
            0
        }
        Err(number) => number,
    }
}

const ORDINARY: Program = Program { calls: ordinary_call, columns: ordinary_columns };

/// Do the library and what stands beside it answer every job with the same bytes?
fn agree(beside: &Program, call: &str, jobs: &[Job]) -> bool {
    jobs.iter().all(|job| {
        let (mut one, mut other) = (Room::new(), Room::new());
        let status = LIBRARY.caller(call)(call, job, &mut one);
        assert_eq!((status, beside.caller(call)(call, job, &mut other)), (0, 0), "{call} refused {:?}", job.table);
        one.adds == other.adds && one.stars == other.stars && one.heads == other.heads && one.sum == other.sum
            && one.yes == other.yes && one.lowest == other.lowest && one.counts == other.counts
            && one.table == other.table && one.rows == other.rows && one.cols == other.cols && one.n == other.n
            && one.out == other.out && one.line == other.line
    })
}

/// The processor time of this thread, in microseconds: what other programs take meanwhile does not count.
fn processor_time() -> f64 {
    const THREAD: i32 = 3;
    let mut time = [0i64; 2];
    // Safety: the call writes one time of two numbers.
    unsafe { clock_gettime(THREAD, &mut time) };
    time[0] as f64 * 1e6 + time[1] as f64 / 1e3
}

/// The time of one call, in microseconds, over all jobs `times` times.
fn once(caller: Caller, call: &str, jobs: &[Job], times: usize, room: &mut Room) -> f64 {
    let start = processor_time();
    for _ in 0..times {
        for job in jobs {
            std::hint::black_box(caller(call, job, room));
        }
    }
    (processor_time() - start) / (times * jobs.len()) as f64
}

fn median(mut values: Vec<f64>) -> f64 {
    values.sort_by(f64::total_cmp);
    values[values.len() / 2]
}

/// How often the jobs are done in one repeat: for two milliseconds.
fn often(call: &str, jobs: &[Job], room: &mut Room) -> usize {
    let trial = once(LIBRARY.caller(call), call, jobs, 1, room) * jobs.len() as f64;
    (2000.0 / trial).ceil().max(1.0) as usize
}

/// The library's time and that of what stands beside it, each the median of repeats that take turns.
fn measure(beside: &Program, call: &str, jobs: &[Job]) -> (f64, f64) {
    let mut room = Room::new();
    let times = often(call, jobs, &mut room);
    let mut pairs = (Vec::new(), Vec::new());
    for _ in 0..REPEATS {
        pairs.0.push(once(LIBRARY.caller(call), call, jobs, times, &mut room));
        pairs.1.push(once(beside.caller(call), call, jobs, times, &mut room));
    }
    (median(pairs.0), median(pairs.1))
}

/// A line for each call, kind and size: the library's time and the other, and a word more if their answers differ.
fn print_times(beside: &Program, calls: &[&str]) {
    for &call in calls {
        for kind in KINDS {
            for n in SIZES {
                let jobs = jobs(kind, n);
                let word = if agree(beside, call, &jobs) { "" } else { " differ" };
                let (own, other) = measure(beside, call, &jobs);
                println!("{call} {kind} {n} {own:.2} {other:.2}{word}");
            }
        }
    }
}

/// One repeat of `solve` for each kind and size on standard input, and its time on standard output.
fn take_turns() {
    let mut room = Room::new();
    let mut last = (String::new(), Vec::new(), 0);
    for line in std::io::stdin().lines() {
        let line = line.expect("a line");
        if line != last.0 {
            let (kind, n) = line.split_once(' ').expect("a kind and a size");
            let jobs = jobs(kind, n.parse().expect("N is a number"));
            let times = often("solve", &jobs, &mut room);
            last = (line, jobs, times);
        }
        println!("{:.4}", once(library, "solve", &last.1, last.2, &mut room));
    }
}

/// The stack that a call uses at most: the room below this function's own frame is painted, and after the call the lowest
/// byte that changed is sought.
#[inline(never)]
fn stack_of(caller: Caller, call: &str, job: &Job, room: &mut Room) -> usize {
    const DEPTH: usize = 256 * 1024;
    const OWN: usize = 512;
    let here = 0u8;
    let top = std::hint::black_box(&here as *const u8 as usize) - OWN;
    for at in top - DEPTH..top {
        // Safety: the thread's stack reaches far below; no frame is there.
        unsafe { std::ptr::write_volatile(at as *mut u8, 0xA5) };
    }
    caller(call, job, room);
    let untouched = (top - DEPTH..top).take_while(|&at| unsafe { std::ptr::read_volatile(at as *const u8) } == 0xA5);
    DEPTH - untouched.count() + OWN
}

fn print_stack() {
    println!("| call | stack at most, bytes |\n|---|---|");
    for call in CALLS {
        let most = std::thread::Builder::new().stack_size(4 << 20).spawn(move || {
            let mut room = Room::new();
            let all = KINDS.iter().flat_map(|kind| jobs(kind, 32));
            all.map(|job| stack_of(LIBRARY.caller(call), call, &job, &mut room)).max().expect("some jobs")
        });
        println!("| {call} | {} |", most.expect("a thread").join().expect("no panic"));
    }
}

/// What callgrind counts: the program ends inside, so that nothing after it is counted.
#[inline(never)]
fn counted(caller: Caller, call: &str, jobs: &[Job], room: &mut Room) -> ! {
    for job in jobs {
        std::hint::black_box(caller(call, job, room));
    }
    // Safety: nothing is to be flushed.
    unsafe { _exit(0) }
}

/// Every table that is timed, a line each: its kind, N and the greatest sum, then the entries row by row.
fn print_tables() {
    let mut room = Room::new();
    for kind in KINDS {
        for n in SIZES {
            for job in jobs(kind, n) {
                library("solve", &job, &mut room);
                let entries: Vec<String> = job.table.iter().map(|v| v.to_string()).collect();
                println!("{kind} {n} {} {}", room.sum, entries.join(" "));
            }
        }
    }
}

/// The library or the ordinary program.
fn named(who: &str) -> &'static Program {
    if who == "library" { &LIBRARY } else { &ORDINARY }
}

fn main() {
    let words: Vec<String> = std::env::args().skip(1).collect();
    let words: Vec<&str> = words.iter().map(|w| w.as_str()).collect();
    match words[..] {
        ["times"] => print_times(&ORDINARY, &CALLS),
        ["times", call] => print_times(&ORDINARY, &[call]),
        #[cfg(beside)]
        ["beside", ref calls @ ..] => print_times(&OLDER, calls),
        ["stack"] => print_stack(),
        ["count", call, kind, n, who] => {
            let jobs = jobs(kind, n.parse().expect("N is a number"));
            assert!(agree(&ORDINARY, call, &jobs));
            counted(named(who).caller(call), call, &jobs, &mut Room::new());
        }
        ["spin", call, kind, n, who] => {
            let jobs = jobs(kind, n.parse().expect("N is a number"));
            once(named(who).caller(call), call, &jobs, 20_000, &mut Room::new());
        }
        ["tables"] => println!("{TABLES}"),
        ["dump"] => print_tables(),
        ["turns"] => take_turns(),
        _ => {
            eprintln!("usage: bench times [CALL] | stack | tables | dump | turns | count|spin CALL KIND N library|ordinary");
            std::process::exit(2);
        }
    }
}
