//! Holds the six C exports against the reference on generated cases. Runs with the feature
//! `exports`, which links the archive (see build.rs):
//!
//!     cargo test --offline --features exports --test exports
//!
//! INKROWAN_ROUNDS and INKROWAN_SEED, both decimal, make it longer and other; a run longer than
//! the default shows a line of progress every few seconds.

#![cfg(feature = "exports")]

use inkrowan_host::answers::{expected, number, Expected, Tally};
use inkrowan_host::generate::{Case, Cases, Random, Request, DEFAULT_ROUNDS, DEFAULT_SEED};
use inkrowan_host::reference::{numbers, value};
use inkrowan_host::samples;
use std::io::Write;
use std::time::{Duration, Instant};

extern "C" {
    fn inkrowan_check(book: *const u8, book_len: usize) -> u64;
    fn inkrowan_read(
        book: *const u8,
        book_len: usize,
        message: *const u8,
        message_len: usize,
        index: *mut u8,
        index_len: usize,
    ) -> u64;
    fn inkrowan_read_checked(
        book: *const u8,
        book_len: usize,
        message: *const u8,
        message_len: usize,
        index: *mut u8,
        index_len: usize,
    ) -> u64;
    fn inkrowan_write(
        book: *const u8,
        book_len: usize,
        version: u64,
        type_text: *const u8,
        type_text_len: usize,
        triples: *const u8,
        triples_len: usize,
        values: *const u8,
        values_len: usize,
        output: *mut u8,
        output_len: usize,
    ) -> u64;
    fn inkrowan_write_checked(
        book: *const u8,
        book_len: usize,
        version: u64,
        type_text: *const u8,
        type_text_len: usize,
        triples: *const u8,
        triples_len: usize,
        values: *const u8,
        values_len: usize,
        output: *mut u8,
        output_len: usize,
    ) -> u64;
    fn inkrowan_find(
        index: *const u8,
        index_len: usize,
        count_row: u64,
        instance: u64,
        tag: u64,
    ) -> u64;
}

const GUARD: usize = 48;

/// A lent buffer between guard bytes, at any alignment.
struct Lent {
    bytes: Vec<u8>,
    before: Vec<u8>,
    start: usize,
    len: usize,
}

impl Lent {
    fn new(random: &mut Random, content: &[u8]) -> Lent {
        let start = GUARD + random.below(16);
        let mut bytes = random.bytes(start);
        bytes.extend(content);
        bytes.extend(random.bytes(GUARD));
        Lent { before: bytes.clone(), bytes, start, len: content.len() }
    }

    /// A buffer to be written, filled with anything.
    fn filled(random: &mut Random, len: usize) -> Lent {
        let content = random.bytes(len);
        Lent::new(random, &content)
    }

    fn read(&self) -> (*const u8, usize) {
        (self.bytes[self.start..].as_ptr(), self.len)
    }

    fn written(&mut self) -> (*mut u8, usize) {
        (self.bytes[self.start..].as_mut_ptr(), self.len)
    }

    /// What is wrong, if it is anything but what it was with `written` over its beginning.
    fn fault(&self, name: &str, written: &[u8]) -> Option<String> {
        let mut wanted = self.before.clone();
        wanted[self.start..self.start + written.len()].copy_from_slice(written);
        let at = (0..wanted.len()).find(|&at| wanted[at] != self.bytes[at])?;
        let place = at as isize - self.start as isize;
        Some(format!(
            "{name}: byte {place} of {} is {}, not {}",
            self.len, self.bytes[at], wanted[at]
        ))
    }
}

/// Calls the export, or its `_checked` sister, and gives what is wrong.
fn faults(random: &mut Random, case: &Case, checked: bool, wanted: &Expected) -> Vec<String> {
    let written = &wanted.written;
    let (answer, buffers) = match case {
        Case::Check { book } => {
            let book = Lent::new(random, book);
            let (at, len) = book.read();
            // SAFETY: pointer and length are those of a live buffer.
            let answer = unsafe { inkrowan_check(at, len) };
            (answer, vec![book.fault("book", &[])])
        }
        Case::Read { book, message, index_bytes } => {
            let book = Lent::new(random, book);
            let message = Lent::new(random, message);
            let mut index = Lent::filled(random, *index_bytes);
            let ((b, bl), (m, ml), (i, il)) = (book.read(), message.read(), index.written());
            let call = if checked { inkrowan_read_checked } else { inkrowan_read };
            // SAFETY: as above, and the written buffer overlaps no other.
            let answer = unsafe { call(b, bl, m, ml, i, il) };
            let faults = [
                book.fault("book", &[]),
                message.fault("message", &[]),
                index.fault("index", written),
            ];
            (answer, faults.to_vec())
        }
        Case::Write { book, request, output_bytes } => {
            let book = Lent::new(random, book);
            let type_text = Lent::new(random, &request.type_text);
            let triples = Lent::new(random, &request.triples);
            let values = Lent::new(random, &request.values);
            let mut output = Lent::filled(random, *output_bytes);
            let ((b, bl), (t, tl), (r, rl)) = (book.read(), type_text.read(), triples.read());
            let ((v, vl), (o, ol)) = (values.read(), output.written());
            let call = if checked { inkrowan_write_checked } else { inkrowan_write };
            // SAFETY: as above.
            let answer = unsafe { call(b, bl, request.version, t, tl, r, rl, v, vl, o, ol) };
            let faults = [
                book.fault("book", &[]),
                type_text.fault("type text", &[]),
                triples.fault("triples", &[]),
                values.fault("values", &[]),
                output.fault("output", written),
            ];
            (answer, faults.to_vec())
        }
        Case::Find { index, count_row, instance, tag } => {
            let index = Lent::new(random, index);
            let (at, len) = index.read();
            // SAFETY: as above.
            let answer = unsafe { inkrowan_find(at, len, *count_row, *instance, *tag) };
            (answer, vec![index.fault("index", &[])])
        }
    };
    let mut all: Vec<String> = buffers.into_iter().flatten().collect();
    if answer != wanted.answer {
        all.insert(0, format!("answer {answer:#018x}, not {:#018x}", wanted.answer));
    }
    all
}

fn hex(bytes: &[u8]) -> String {
    if bytes.is_empty() {
        return "-".to_string();
    }
    bytes.iter().map(|byte| format!("{byte:02x}")).collect()
}

fn list(bytes: &[u8]) -> String {
    if bytes.len() < 2 {
        return "-".to_string();
    }
    let numbers: Vec<String> = numbers(bytes).iter().map(u16::to_string).collect();
    numbers.join(",")
}

/// The call as vectors.tsv has it, and the bytes of a buffer that need not be whole numbers.
fn shown(case: &Case) -> String {
    match case {
        Case::Check { book } => format!("check {}", hex(book)),
        Case::Read { book, message, index_bytes } => {
            let call = format!("read {} {} {}", hex(book), hex(message), index_bytes / 2);
            format!("{call}\nindex of {index_bytes} bytes")
        }
        Case::Write { book, request, output_bytes } => {
            let (book, version, text) = (hex(book), request.version, hex(&request.type_text));
            let (triples, values) = (list(&request.triples), hex(&request.values));
            let call = format!("write {book} {version} {text} {triples} {values} {output_bytes}");
            format!("{call}\ntriples of {} bytes", request.triples.len())
        }
        Case::Find { index, count_row, instance, tag } => {
            let call = format!("find {} {count_row} {instance} {tag}", list(index));
            format!("{call}\nindex of {} bytes", index.len())
        }
    }
}

fn from_environment(name: &str, default: u64) -> u64 {
    match std::env::var(name) {
        Ok(text) => text.parse().unwrap_or_else(|_| panic!("{name} is no number: {text}")),
        Err(_) => default,
    }
}

/// Past the test runner, which keeps back what a test prints.
fn say(line: &str) {
    let _ = writeln!(std::io::stderr(), "{line}");
}

/// Makes the call, and its `_checked` sister if the book is sound; gives how many calls it made.
fn hold(random: &mut Random, case: &Case, wanted: &Expected, name: &str) -> usize {
    let both = match case {
        Case::Read { .. } | Case::Write { .. } => number(wanted.answer) != 1,
        Case::Check { .. } | Case::Find { .. } => false,
    };
    for checked in [false, true].into_iter().take(1 + usize::from(both)) {
        let faults = faults(random, case, checked, wanted);
        let call = if checked { " (_checked)" } else { "" };
        assert!(faults.is_empty(), "{name}{call}\n{}\n{}", faults.join("\n"), shown(case));
    }
    1 + usize::from(both)
}

/// Each order is read, and written again from what was read.
#[test]
fn the_exports_serve_the_samples() {
    let mut random = Random::new(DEFAULT_SEED);
    for order in samples::orders() {
        let (book, message) = (samples::BOOK.to_vec(), order.to_vec());
        let case = Case::Read { book: book.clone(), message, index_bytes: 2_048 * 12 };
        let read = expected(&case);
        hold(&mut random, &case, &read, "an order");
        // Tag, start and length of each row behind 35 and before 10.
        let rows: Vec<&[u8]> = read.written.chunks(12).collect();
        let triples = rows[3..rows.len() - 1].iter().flat_map(|row| row[..6].to_vec()).collect();
        let type_text = value(&numbers(&read.written), order, 2).to_vec();
        let values = order.to_vec();
        let request = Request { version: 1, type_text, triples, values };
        let case = Case::Write { book, request, output_bytes: order.len() };
        let written = expected(&case);
        assert_eq!(written.written, order);
        hold(&mut random, &case, &written, "an order written again");
    }
}

#[test]
fn the_exports_agree_with_the_reference() {
    let seed = from_environment("INKROWAN_SEED", DEFAULT_SEED);
    let rounds = from_environment("INKROWAN_ROUNDS", DEFAULT_ROUNDS as u64) as usize;
    let begin = Instant::now();
    let mut last_word = begin;
    let mut random = Random::new(!seed);
    let mut tally = Tally::default();
    let mut calls = 0;
    let mut cases = Cases::new(seed, rounds);
    while let Some(case) = cases.next() {
        let wanted = expected(&case);
        tally.note(&case, wanted.answer);
        let name = format!("round {}, call {calls}", cases.round());
        calls += hold(&mut random, &case, &wanted, &name);
        if rounds > DEFAULT_ROUNDS && last_word.elapsed() > Duration::from_secs(5) {
            last_word = Instant::now();
            let (round, seconds) = (cases.round(), begin.elapsed().as_secs());
            say(&format!("{round} of {rounds} rounds, {calls} calls, {seconds} s"));
        }
    }
    let seconds = begin.elapsed().as_secs_f64();
    say(&format!("{}{calls} calls in {rounds} rounds, {seconds:.1} s", tally.lines()));
}
