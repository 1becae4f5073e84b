//! What the C interface answers, by the reference: one 64-bit number, and what a written buffer
//! begins with afterwards.

use crate::generate::Case;
use crate::reference::{self, Refusal};

/// The answer of find where the tag is absent.
pub const ABSENT: u64 = u64::MAX;

/// An answer, and the bytes with which the written buffer begins; its rest stays as it came.
#[derive(Debug, PartialEq, Eq)]
pub struct Expected {
    pub answer: u64,
    pub written: Vec<u8>,
}

/// Number, tag, and place or count, in one.
pub fn packed(number: u8, tag: u16, low: usize) -> u64 {
    assert!(low <= u32::MAX as usize);
    u64::from(number) << 56 | u64::from(tag) << 32 | low as u64
}

/// The number of an answer of any call but find.
pub fn number(answer: u64) -> usize {
    (answer >> 56) as usize
}

fn refused(refusal: Refusal) -> Expected {
    let Refusal { number, place, tag } = refusal;
    Expected { answer: packed(number, tag, place), written: vec![] }
}

pub fn expected(case: &Case) -> Expected {
    match case {
        Case::Check { book } => {
            let answer = match reference::check(book) {
                Ok(()) => 0,
                Err(broken) => packed(broken.rule, 0, broken.offset),
            };
            Expected { answer, written: vec![] }
        }
        Case::Read { book, message, index_bytes } => {
            match reference::read(book, message, index_bytes / 2) {
                Ok(rows) => Expected {
                    answer: packed(0, 0, rows.len()),
                    written: rows.concat().iter().flat_map(|number| number.to_le_bytes()).collect(),
                },
                Err(refusal) => refused(refusal),
            }
        }
        Case::Write { book, request, output_bytes } => {
            match reference::write(book, request.lent(), *output_bytes) {
                Ok(message) => Expected { answer: packed(0, 0, message.len()), written: message },
                Err(refusal) => refused(refusal),
            }
        }
        Case::Find { index, count_row, instance, tag } => {
            let row = reference::find(&reference::numbers(index), *count_row, *instance, *tag);
            Expected { answer: row.map_or(ABSENT, |row| row as u64), written: vec![] }
        }
    }
}

/// How often each answer came up.
#[derive(Default)]
pub struct Tally {
    pub checks: [usize; 10],
    pub reads: [usize; 16],
    pub writes: [usize; 19],
    /// Found, and absent.
    pub finds: [usize; 2],
}

impl Tally {
    pub fn note(&mut self, case: &Case, answer: u64) {
        match case {
            Case::Check { .. } => self.checks[number(answer)] += 1,
            Case::Read { .. } => self.reads[number(answer)] += 1,
            Case::Write { .. } => self.writes[number(answer)] += 1,
            Case::Find { .. } => self.finds[usize::from(answer == ABSENT)] += 1,
        }
    }

    /// One line a call, 0 for sound, accepted or made.
    pub fn lines(&self) -> String {
        let line = |name: &str, counts: &[usize]| {
            let shown = counts.iter().enumerate().filter(|(_, &count)| count > 0);
            let parts: Vec<String> =
                shown.map(|(number, count)| format!("{number}: {count}")).collect();
            format!("{name}  {}\n", parts.join("  "))
        };
        let finds = format!("find   found: {}  absent: {}\n", self.finds[0], self.finds[1]);
        line("check", &self.checks)
            + &line("read ", &self.reads)
            + &line("write", &self.writes)
            + &finds
    }

    /// The answers that came up less often than `least` times, of all that can come up.
    pub fn rare(&self, least: usize) -> Vec<String> {
        let writer = [0, 1, 2, 7, 8, 9, 10, 11, 12, 13, 14, 16, 17, 18];
        let checks = (0..10).map(|n| (format!("check {n}"), self.checks[n]));
        let reads = (0..16).map(|n| (format!("read {n}"), self.reads[n]));
        let writes = writer.iter().map(|&n| (format!("write {n}"), self.writes[n]));
        let finds = (0..2).map(|n| (format!("find {n}"), self.finds[n]));
        let all = checks.chain(reads).chain(writes).chain(finds);
        all.filter(|(_, count)| *count < least)
            .map(|(name, count)| format!("{name}: {count}"))
            .collect()
    }
}
