//! Scripts: lines cut out of the input, parsed, judged and run, and what they
//! print.

use crate::bucket::{Bytes, Key, Value};
use crate::cluster::call::{Answers, Outcome, Request};
use crate::cluster::{Cluster, Step, Tally};
use crate::refusal::*;

/// Longest line, without its line feed.
pub const LONGEST: usize = 120;
/// Most accepted lines after the cluster line.
pub const MOST_ACCEPTED: u32 = 1_000_000;
/// Nothing after the line of this number is read.
pub const LAST_LINE: u32 = u32::MAX;

/// A well-formed line.
#[derive(Clone, Copy, PartialEq, Eq, Debug)]
pub enum Line {
    Cluster(u32, u32),
    Step(Step),
}

/// A running script: it takes input in chunks of any size.
#[derive(Clone)]
pub struct Script {
    cluster: Option<Box<Cluster>>,
    accepted: u32,
    lines: u32,
    unfinished: Unfinished,
}

/// The start of a line whose end has not come yet. One byte past the longest
/// line is enough to know that it is too long.
#[derive(Clone)]
struct Unfinished {
    len: usize,
    bytes: [u8; LONGEST + 1],
}

impl Unfinished {
    fn extend(&mut self, bytes: &[u8]) {
        let taken = bytes.len().min(self.bytes.len() - self.len);
        self.bytes[self.len..self.len + taken].copy_from_slice(&bytes[..taken]);
        self.len += taken;
    }
}

impl Script {
    pub fn new() -> Self {
        Self::after_line(0)
    }

    /// A script with so many lines already read, none of them accepted.
    pub fn after_line(lines: u32) -> Self {
        Script {
            cluster: None,
            accepted: 0,
            lines,
            unfinished: Unfinished {
                len: 0,
                bytes: [0; LONGEST + 1],
            },
        }
    }

    pub fn cluster(&self) -> Option<&Cluster> {
        self.cluster.as_deref()
    }

    /// Lines accepted after the cluster line.
    pub fn accepted(&self) -> u32 {
        self.accepted
    }

    /// Whether nothing more is read.
    pub fn is_over(&self) -> bool {
        self.lines == LAST_LINE
    }

    pub fn tally(&self) -> Tally {
        self.cluster().map_or(Tally::default(), Cluster::tally)
    }

    /// Takes the next chunk of input and appends what its lines print.
    pub fn feed(&mut self, chunk: &[u8], out: &mut Vec<u8>) {
        let mut rest = chunk;
        while !self.is_over() {
            let Some(end) = line_feed(rest) else {
                self.unfinished.extend(rest);
                return;
            };
            if self.unfinished.len == 0 {
                self.line(&rest[..end], out);
            } else {
                self.unfinished.extend(&rest[..end]);
                self.finish_line(out);
            }
            rest = &rest[end + 1..];
        }
    }

    /// Ends the input: a last line without line feed, then the tally.
    pub fn finish(mut self, out: &mut Vec<u8>) {
        if self.unfinished.len > 0 && !self.is_over() {
            self.finish_line(out);
        }
        let tally = self.tally();
        out.extend_from_slice(b"messages");
        for count in [
            tally.sent,
            tally.copied,
            tally.delivered,
            tally.lost,
            tally.under_way,
        ] {
            out.push(b' ');
            decimal(count, out);
        }
        out.push(b'\n');
    }

    fn finish_line(&mut self, out: &mut Vec<u8>) {
        let bytes = self.unfinished.bytes;
        let len = self.unfinished.len;
        self.unfinished.len = 0;
        self.line(&bytes[..len], out);
    }

    /// Runs one line, given without its line feed; says whether it was
    /// accepted.
    #[inline]
    pub fn line(&mut self, line: &[u8], out: &mut Vec<u8>) -> bool {
        self.lines += 1;
        match self.judge_and_run(line, out) {
            Ok(()) => true,
            Err(number) => {
                out.extend_from_slice(b"line ");
                decimal(self.lines, out);
                out.extend_from_slice(b" refused ");
                decimal(u32::from(number), out);
                out.push(b'\n');
                false
            }
        }
    }

    /// Refusals in rising order of number; nothing changes before the last of
    /// them has been looked at.
    #[inline]
    fn judge_and_run(&mut self, line: &[u8], out: &mut Vec<u8>) -> Result<(), Refusal> {
        match parse(line).ok_or(FORM)? {
            Line::Step(step) => {
                let cluster = self.cluster.as_deref_mut().ok_or(CLUSTER)?;
                cluster.admit(&step)?;
                if self.accepted == MOST_ACCEPTED {
                    return Err(LIMIT);
                }
                cluster.step(&step, out)?;
                self.accepted += 1;
            }
            Line::Cluster(..) if self.cluster.is_some() => return Err(CLUSTER),
            Line::Cluster(size, buckets) => self.cluster = Some(Cluster::new(size, buckets)?),
        }
        Ok(())
    }
}

impl Default for Script {
    fn default() -> Self {
        Self::new()
    }
}

/// Place of the first line feed.
#[inline]
fn line_feed(bytes: &[u8]) -> Option<usize> {
    bytes.iter().position(|&byte| byte == b'\n')
}

/// Reads a line from left to right; `None` where it is of no known form.
#[inline]
pub fn parse(line: &[u8]) -> Option<Line> {
    if line.len() > LONGEST {
        return None;
    }
    let space = line.iter().position(|&byte| byte == b' ')?;
    let mut rest = &line[space..];
    let rest = &mut rest;
    let step = match &line[..space] {
        b"deliver" => Step::Deliver(number(rest)?),
        b"get" => Step::Call(number(rest)?, Request::Get { key: key(rest)? }),
        b"set" => Step::Call(number(rest)?, set(key(rest)?, value(rest)?)),
        b"setif" => Step::Call(
            number(rest)?,
            set_if(key(rest)?, value(rest)?, value(rest)?),
        ),
        b"del" => Step::Call(number(rest)?, set(key(rest)?, None)),
        b"keys" => Step::Call(number(rest)?, keys(number(rest)?)),
        b"copy" => Step::Copy(number(rest)?),
        b"lose" => Step::Lose(number(rest)?),
        b"elect" => Step::Elect(number(rest)?),
        b"timeout" => Step::Timeout(number(rest)?, number(rest)?),
        b"stop" => Step::Stop(number(rest)?),
        b"cut" => Step::Cut(number(rest)?, number(rest)?),
        b"start" => Step::Start(number(rest)?),
        b"cluster" => {
            let line = Line::Cluster(number(rest)?, number(rest)?);
            return rest.is_empty().then_some(line);
        }
        _ => return None,
    };
    rest.is_empty().then_some(Line::Step(step))
}

fn keys(bucket: u32) -> Request {
    Request::Keys { bucket }
}

fn set(key: Key, value: Option<Value>) -> Request {
    Request::Set { key, value }
}

fn set_if(key: Key, expected: Option<Value>, value: Option<Value>) -> Request {
    Request::SetIf {
        key,
        expected,
        value,
    }
}

/// Takes a space and a number of 1 to 9 digits without needless zero.
#[inline]
fn number(rest: &mut &[u8]) -> Option<u32> {
    let word = rest.strip_prefix(b" ")?;
    let mut value = 0;
    let mut digits = 0;
    while let Some(digit @ b'0'..=b'9') = word.get(digits) {
        if digits == 9 {
            return None;
        }
        value = value * 10 + u32::from(digit - b'0');
        digits += 1;
    }
    if digits == 0 || (digits > 1 && word[0] == b'0') {
        return None;
    }
    *rest = &word[digits..];
    Some(value)
}

/// Takes a space and the word of a key; `-` is a key of no bytes, which is well
/// formed but too short.
#[inline]
fn key(rest: &mut &[u8]) -> Option<Key> {
    if let [b' ', b'-', after @ ..] = *rest {
        *rest = after;
        return Some(Key::EMPTY);
    }
    hex(rest)
}

/// Takes a space and the word of a value: `-` for an absent key, which is the
/// inner `None`, `.` for the empty value.
#[inline]
fn value(rest: &mut &[u8]) -> Option<Option<Value>> {
    let (value, after) = match *rest {
        [b' ', b'-', after @ ..] => (None, after),
        [b' ', b'.', after @ ..] => (Some(Value::EMPTY), after),
        _ => return hex(rest).map(Some),
    };
    *rest = after;
    Some(value)
}

/// Takes a space and pairs of lower-case hexadecimal digits, at least one.
#[inline]
fn hex<const N: usize>(rest: &mut &[u8]) -> Option<Bytes<N>> {
    let mut word = rest.strip_prefix(b" ")?;
    let mut bytes = Bytes::EMPTY;
    while let [high, low, after @ ..] = word {
        if *high == b' ' {
            break;
        }
        bytes.push(nibble(*high)? << 4 | nibble(*low)?);
        word = after;
    }
    *rest = word;
    (!bytes.is_empty()).then_some(bytes)
}

#[inline]
fn nibble(digit: u8) -> Option<u8> {
    match digit {
        b'0'..=b'9' => Some(digit - b'0'),
        b'a'..=b'f' => Some(digit - b'a' + 10),
        _ => None,
    }
}

/// Prints each answer on a line of its own.
impl Answers for Vec<u8> {
    fn answer(&mut self, call: u32, rounds: u32, outcome: Outcome) {
        decimal(call, self);
        let word: &[u8] = match outcome {
            Outcome::Value(_) => b" value ",
            Outcome::Keys(_) => b" keys ",
            Outcome::Done => b" done ",
            Outcome::Mismatch => b" mismatch ",
            Outcome::Full => b" full ",
            Outcome::NotDone => b" notdone ",
            Outcome::Unknown => b" unknown ",
        };
        self.extend_from_slice(word);
        decimal(rounds, self);
        match outcome {
            Outcome::Value(None) | Outcome::Keys([]) => self.extend_from_slice(b" -"),
            Outcome::Value(Some(value)) if value.is_empty() => self.extend_from_slice(b" ."),
            Outcome::Value(Some(value)) => print_hex(value, self),
            Outcome::Keys(keys) => keys.iter().for_each(|key| print_hex(key, self)),
            _ => {}
        }
        self.push(b'\n');
    }
}

/// Prints a space and the bytes, of which there is at least one.
fn print_hex<const N: usize>(bytes: &Bytes<N>, out: &mut Vec<u8>) {
    const DIGITS: &[u8; 16] = b"0123456789abcdef";
    out.push(b' ');
    for byte in bytes.as_slice() {
        let pair = [byte >> 4, byte & 15].map(|digit| DIGITS[usize::from(digit)]);
        out.extend_from_slice(&pair);
    }
}

fn decimal(mut number: u32, out: &mut Vec<u8>) {
    let mut digits = [0; 10];
    let mut start = digits.len();
    loop {
        start -= 1;
        digits[start] = b'0' + (number % 10) as u8;
        number /= 10;
        if number == 0 {
            break;
        }
    }
    out.extend_from_slice(&digits[start..]);
}
