//! Requests to the driver and its answers (the form is described in driver.c).

use std::io::{BufReader, BufWriter, Read, Write};
use std::process::{Child, ChildStdin, ChildStdout, Command, Stdio};

#[derive(Clone, Copy, PartialEq, Eq, Debug)]
pub enum Call {
    Solve = 1,
    FromCanon = 2,
    FromStars = 3,
    IsSimplest = 4,
    ReadSheet = 5,
    WriteSheet = 6,
    Print = 7,
    ColumnHeads = 8,
}

/// A lent slice, or a single result as a slice of one element.
#[derive(Clone, PartialEq, Eq)]
pub struct Part {
    pub size: usize,
    pub bytes: Vec<u8>,
}

impl Part {
    pub fn orders(values: &[i16]) -> Part {
        Part { size: 2, bytes: values.iter().flat_map(|v| v.to_le_bytes()).collect() }
    }

    pub fn numbers(values: &[u32]) -> Part {
        Part { size: 4, bytes: values.iter().flat_map(|v| v.to_le_bytes()).collect() }
    }

    pub fn signed(values: &[i32]) -> Part {
        Part { size: 4, bytes: values.iter().flat_map(|v| v.to_le_bytes()).collect() }
    }

    pub fn text(values: &[u8]) -> Part {
        Part { size: 1, bytes: values.to_vec() }
    }

    pub fn length(value: u64) -> Part {
        Part { size: 8, bytes: value.to_le_bytes().to_vec() }
    }

    pub fn count(&self) -> usize {
        self.bytes.len() / self.size
    }

    pub fn as_orders(&self) -> Vec<i16> {
        self.bytes.chunks(2).map(|b| i16::from_le_bytes([b[0], b[1]])).collect()
    }

    pub fn as_numbers(&self) -> Vec<u32> {
        self.bytes.chunks(4).map(|b| u32::from_le_bytes([b[0], b[1], b[2], b[3]])).collect()
    }

    pub fn as_signed(&self) -> Vec<i32> {
        self.as_numbers().iter().map(|&v| v as i32).collect()
    }

    /// The bytes given stand at the front; the bytes after them stay.
    pub fn write_front(&mut self, bytes: &[u8]) {
        self.bytes[..bytes.len()].copy_from_slice(bytes);
    }
}

#[derive(Clone)]
pub struct Request {
    pub call: Call,
    pub n: u64,
    pub parts: Vec<Part>,
}

#[derive(Clone, PartialEq, Eq)]
pub struct Answer {
    pub status: u32,
    pub guarded: bool,
    pub parts: Vec<Part>,
}

impl Request {
    fn send(&self, to: &mut impl Write) -> std::io::Result<()> {
        to.write_all(&[self.call as u8])?;
        to.write_all(&self.n.to_le_bytes())?;
        for part in &self.parts {
            to.write_all(&(part.count() as u32).to_le_bytes())?;
            to.write_all(&part.bytes)?;
        }
        Ok(())
    }

    fn receive(&self, from: &mut impl Read) -> std::io::Result<Answer> {
        let mut front = [0u8; 5];
        from.read_exact(&mut front)?;
        let mut parts = self.parts.clone();
        for part in &mut parts {
            from.read_exact(&mut part.bytes)?;
        }
        let status = u32::from_le_bytes([front[0], front[1], front[2], front[3]]);
        Ok(Answer { status, guarded: front[4] == 1, parts })
    }

    /// The answer that refuses: nothing lent is changed.
    pub fn refused(&self, status: u32) -> Answer {
        Answer { status, guarded: true, parts: self.parts.clone() }
    }

    /// How many parts are slices; a single result stands behind them, but of the heads of columns there is none.
    pub fn slices(&self) -> usize {
        if self.call == Call::ColumnHeads { self.parts.len() } else { self.parts.len() - 1 }
    }

    /// What was asked, in words, so that a failure can be tried by hand.
    pub fn describe(&self) -> String {
        let mut words = format!("{:?} n={}", self.call, self.n);
        for part in &self.parts {
            words += &describe_part(part);
        }
        words
    }
}

fn describe_part(part: &Part) -> String {
    match part.size {
        1 => format!("\n  bytes {:?}", String::from_utf8_lossy(&part.bytes)),
        2 => format!("\n  orders {:?}", part.as_orders()),
        4 => format!("\n  numbers {:?}", part.as_signed()),
        _ => format!("\n  size {:?}", part.bytes),
    }
}

impl Answer {
    pub fn describe(&self) -> String {
        let mut words = format!("status {} guards {}", self.status, if self.guarded { "stand" } else { "OVERWRITTEN" });
        for part in &self.parts {
            words += &describe_part(part);
        }
        words
    }
}

pub struct Driver {
    child: Child,
    to: Option<BufWriter<ChildStdin>>,
    from: BufReader<ChildStdout>,
}

impl Driver {
    pub fn start(command: &[String]) -> Driver {
        let mut child = Command::new(&command[0])
            .args(&command[1..])
            .stdin(Stdio::piped())
            .stdout(Stdio::piped())
            .spawn()
            .expect("the driver starts");
        let to = Some(BufWriter::with_capacity(1 << 16, child.stdin.take().expect("a pipe")));
        let from = BufReader::with_capacity(1 << 16, child.stdout.take().expect("a pipe"));
        Driver { child, to, from }
    }

    /// Asks all requests, one thread sending while the other receives.
    pub fn ask(&mut self, requests: &[Request]) -> Vec<Answer> {
        let to = self.to.as_mut().expect("the driver is open");
        let from = &mut self.from;
        std::thread::scope(|scope| {
            scope.spawn(move || {
                for request in requests {
                    request.send(to).expect("the driver takes requests");
                }
                to.flush().expect("the driver takes requests");
            });
            requests
                .iter()
                .map(|request| match request.receive(from) {
                    Ok(answer) => answer,
                    Err(error) => panic!("the driver stopped ({error}) at {}", request.describe()),
                })
                .collect()
        })
    }

    /// Closes the driver's input and says whether it ended properly.
    pub fn finish(mut self) -> bool {
        drop(self.to.take());
        self.child.wait().map(|status| status.success()).unwrap_or(false)
    }
}
