//! Scripts full of lines that are malformed or refused.

use super::maker::{Maker, ABSENT, EMPTY};
use super::rough::Phase;
use crate::script::LONGEST;

/// Lines that are refused as they stand, or are near to accepted ones.
const ODD_LINES: [&str; 54] = [
    "",
    " ",
    "-",
    ".",
    "elect",
    "elect ",
    " elect 0",
    "elect  0",
    "elect 0 ",
    "elect 0 0",
    "elect\t0",
    "elect 0\r",
    "Elect 0",
    "elect 00",
    "elect 01",
    "elect -0",
    "elect +0",
    "elect .",
    "elect 0x0",
    "elect a",
    "elect 000000000",
    "elect 1000000000",
    "elect 999999999",
    "elect 9999999999",
    "start",
    "start ",
    "start 01",
    "start 0 0",
    "start .",
    "join 3",
    "cut",
    "cut 0",
    "cut 0 ",
    "cut 0 1 2",
    "cut 0 -1",
    "cut 0 01",
    "fetch 0 1 0",
    "cluster",
    "cluster 3",
    "cluster 3 4 4 16",
    "cluster . 4",
    "cluster 03 4",
    "cluster 3 4",
    "cluster 8 4",
    "get 0",
    "set 0 61",
    "setif 0 61 -",
    "setif 0 61 .",
    "del 0",
    "keys 0",
    "keys 0 .",
    "timeout 0",
    "deliver",
    "messages 0 0 0 0 0",
];

/// Words that break the form in a key's place, and all but `.` in a value's.
#[rustfmt::skip]
const ODD_HEX: [&str; 20] = [
    "", "6", "616", "6G", "6A", "--", "-61", "61-", "0x61", "61 ", "é",
    ".", ".", "..", ".1", "1.", ".61", "61.", "-.", ". ",
];

/// Numbers that break the form or are out of range.
const ODD_NUMBERS: [&str; 14] = [
    "",
    "00",
    "01",
    "-1",
    "+1",
    "1.0",
    "1a",
    "7",
    "8",
    "64",
    "999999999",
    "0000000000",
    "1234567890",
    "4294967296",
];

impl Maker {
    pub fn hostile(&mut self, lines: usize) {
        let early = match self.random.chance(300) {
            true => self.random.within(1, 12),
            false => 0,
        };
        for _ in 0..early.min(lines) {
            let line = self.early_line();
            self.add(line);
        }
        if self.random.chance(950) && self.script.cluster().is_none() {
            let size = self.random.within(1, 7);
            let buckets = self.random.within(1, 8);
            self.form(size, buckets);
        }
        self.hostile_lines(lines.saturating_sub(early));
        if self.random.chance(350) {
            self.drop_last_line_feed();
        }
    }

    /// Ordinary lines with hostile ones among them.
    pub fn hostile_lines(&mut self, lines: usize) {
        let share = self.random.within(50, 700);
        let mut phase = self.phase();
        for at in 0..lines {
            if at % 30 == 29 {
                phase = self.phase();
            }
            let line = if self.random.chance(share) || self.script.cluster().is_none() {
                self.hostile_line(&phase)
            } else {
                self.rough_line(&phase).into_bytes()
            };
            self.add(line);
        }
    }

    /// A line for the time before the cluster line.
    fn early_line(&mut self) -> Vec<u8> {
        let (size, buckets) = (self.random.below(12), self.random.below(12));
        match self.random.below(7) {
            0 if !((1..=7).contains(&size) && (1..=8).contains(&buckets)) => {
                format!("cluster {size} {buckets}").into_bytes()
            }
            1 => self.any_call(9).into_bytes(),
            2 => b"get 9 -".to_vec(),
            3 => b"get 9 .".to_vec(),
            4 => b"start 9".to_vec(),
            5 => b"cut 0 1".to_vec(),
            _ => match *self.random.pick(&ODD_LINES) {
                "cluster 3 4" => b"elect 0".to_vec(),
                line => line.as_bytes().to_vec(),
            },
        }
    }

    fn hostile_line(&mut self, phase: &Phase) -> Vec<u8> {
        match self.random.below(12) {
            0..=2 => self.damaged_line(phase),
            3 => self.random.pick(&ODD_LINES).as_bytes().to_vec(),
            4 => self.line_with_odd_hex().into_bytes(),
            5 => self.line_with_odd_number().into_bytes(),
            6 => self.line_with_odd_length().into_bytes(),
            7 => self.sized_line().into_bytes(),
            8 => self.binary_line(),
            9 => self.overlong_line(phase),
            _ => self.misplaced_line().into_bytes(),
        }
    }

    /// A usual line, or a fixed one where there is no cluster.
    fn usual_line(&mut self, phase: &Phase) -> Vec<u8> {
        match self.script.cluster() {
            Some(_) => self.rough_line(phase).into_bytes(),
            None => b"setif 0 61 - 6869".to_vec(),
        }
    }

    /// A usual line with one byte changed, added or taken away, or cut short.
    fn damaged_line(&mut self, phase: &Phase) -> Vec<u8> {
        const LIKELY: &[u8] = b"0123456789abcdefg -.\t\rAF";
        let mut line = self.usual_line(phase);
        let at = self.random.below(line.len());
        let byte = match self.random.chance(800) {
            true => *self.random.pick(LIKELY),
            false => self.random.byte(),
        };
        // A line feed would make two lines of one.
        let byte = if byte == b'\n' { b'\r' } else { byte };
        match self.random.below(5) {
            0 => line[at] = byte,
            1 => line.insert(at, byte),
            2 => drop(line.remove(at)),
            3 => line.truncate(at),
            _ => line.push(byte),
        }
        line
    }

    fn line_with_odd_hex(&mut self) -> String {
        let odd = *self.random.pick(&ODD_HEX);
        match self.random.below(7) {
            0 => format!("get 0 {odd}"),
            1 => format!("set 0 {odd} 61"),
            2 => format!("set 0 61 {odd}"),
            3 => format!("setif 0 {odd} - 61"),
            4 => format!("setif 0 61 {odd} 61"),
            5 => format!("setif 0 61 - {odd}"),
            _ => format!("del 0 {odd}"),
        }
    }

    fn line_with_odd_number(&mut self) -> String {
        let odd = *self.random.pick(&ODD_NUMBERS);
        let word = *self
            .random
            .pick(&["elect", "deliver", "copy", "lose", "stop", "start"]);
        match self.random.below(9) {
            0 => format!("get {odd} 61"),
            1 => format!("keys {odd} 0"),
            2 => format!("keys 0 {odd}"),
            3 => format!("timeout {odd} 0"),
            4 => format!("timeout 0 {odd}"),
            5 => format!("cluster {odd} {odd}"),
            6 => format!("cut {odd} 0"),
            7 => format!("cut 0 {odd}"),
            _ => format!("{word} {odd}"),
        }
    }

    /// Well formed, with a key or value at or past its longest or shortest.
    fn line_with_odd_length(&mut self) -> String {
        let server = *self.random.pick(&[0, 0, 0, 6, 7]);
        let key = self.sized_word(&["-"], &[1, 7, 8, 9, 20]);
        let value = self.sized_word(&[ABSENT, EMPTY], &[1, 15, 16, 17, 18]);
        let expected = self.sized_word(&[ABSENT, EMPTY], &[1, 16, 17]);
        match self.random.below(4) {
            0 => format!("get {server} {key}"),
            1 => format!("set {server} {key} {value}"),
            2 => format!("setif {server} {key} {expected} {value}"),
            _ => format!("del {server} {key}"),
        }
    }

    /// One of these words, or the digits of one of so many bytes.
    fn sized_word(&mut self, words: &[&str], lengths: &[usize]) -> String {
        let at = self.random.below(words.len() + lengths.len());
        match words.get(at) {
            Some(word) => word.to_string(),
            None => "61".repeat(lengths[at - words.len()]),
        }
    }

    /// A line of about the longest length, mostly well formed.
    fn sized_line(&mut self) -> String {
        let length = LONGEST - 2 + self.random.below(5);
        let starts = [
            "get 0 ",
            "set 0 61 ",
            "setif 0 61 - ",
            "setif 0 61 . ",
            "set 10 61 ",
            "del 0 ",
            "deliver ",
        ];
        let mut line = self.random.pick(&starts).to_string();
        while line.len() < length {
            line.push('6');
        }
        line
    }

    fn binary_line(&mut self) -> Vec<u8> {
        let length = self.random.below(140);
        let byte = |maker: &mut Self| match maker.random.byte() {
            b'\n' => 0,
            byte => byte,
        };
        (0..length).map(|_| byte(self)).collect()
    }

    /// A usual line continued far past the longest length.
    fn overlong_line(&mut self, phase: &Phase) -> Vec<u8> {
        let mut line = self.usual_line(phase);
        let length = self.random.within(LONGEST + 1, 3000);
        let filling = *self.random.pick(b" 0a\0\xff");
        line.resize(length, filling);
        line
    }

    /// Well formed, but likely not to fit the state.
    fn misplaced_line(&mut self) -> String {
        let (server, bucket) = (self.random.below(9), self.random.below(10));
        let place = self.random.below(80);
        match self.random.below(11) {
            0 => format!("elect {server}"),
            1 => format!("keys {server} {bucket}"),
            2 => format!("timeout {server} {bucket}"),
            3 if self.random.chance(100) => format!("stop {server}"),
            4 => format!("deliver {place}"),
            5 => format!("copy {place}"),
            6 => format!("lose {place}"),
            7 => format!("cluster {server} {bucket}"),
            8 => format!("start {server}"),
            9 => self.misplaced_cut(place),
            _ => self.any_call(server),
        }
    }

    /// A cut of any message or of none, mostly refused.
    fn misplaced_cut(&mut self, place: usize) -> String {
        let count = self
            .script
            .cluster()
            .map_or(0, |cluster| cluster.messages().len());
        let place = match self.random.chance(700) {
            true => place % count.max(1),
            false => place,
        };
        format!("cut {place} {}", self.random.within(0, 3))
    }
}
