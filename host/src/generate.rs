//! Books, messages and requests from a fixed seed, valid and damaged. What is made here only aims
//! at an answer; the reference says which one it is.

mod books;
mod damaged_books;
mod messages;
mod random;
mod requests;
mod values;

pub use books::Book;
pub use messages::{framed, Piece, Plan};
pub use random::Random;

use crate::reference;
use std::collections::VecDeque;

pub const DEFAULT_SEED: u64 = 0x1A2B_3C4D;
pub const DEFAULT_ROUNDS: usize = 600;

/// One call of the C interface. Of a written buffer only the number of bytes is given.
#[derive(Clone)]
pub enum Case {
    Check { book: Vec<u8> },
    Read { book: Vec<u8>, message: Vec<u8>, index_bytes: usize },
    Write { book: Vec<u8>, request: Request, output_bytes: usize },
    Find { index: Vec<u8>, count_row: u64, instance: u64, tag: u64 },
}

/// What the writer is asked for, owned.
#[derive(Clone)]
pub struct Request {
    pub version: u64,
    pub type_text: Vec<u8>,
    pub triples: Vec<u8>,
    pub values: Vec<u8>,
}

impl Request {
    pub fn lent(&self) -> reference::Request<'_> {
        reference::Request {
            version: self.version,
            type_text: &self.type_text,
            triples: &self.triples,
            values: &self.values,
        }
    }
}

/// All cases of a run: round by round a new book, and calls on it.
pub struct Cases {
    random: Random,
    round: usize,
    rounds: usize,
    queue: VecDeque<Case>,
}

impl Cases {
    pub fn new(seed: u64, rounds: usize) -> Cases {
        Cases { random: Random::new(seed), round: 0, rounds, queue: VecDeque::new() }
    }

    /// How many rounds have begun.
    pub fn round(&self) -> usize {
        self.round
    }

    fn begin_round(&mut self) {
        let random = &mut self.random;
        let large = self.round % 50 == 25;
        let book = if large { Book::large(random) } else { Book::sound(random) };
        let bytes = book.bytes();
        let (checks, reads, writes) = if large { (4, 2, 2) } else { (6, 14, 12) };
        self.queue.push_back(Case::Check { book: bytes.clone() });
        for _ in 0..checks {
            self.queue.push_back(Case::Check { book: book.damaged(random) });
        }
        for turn in 0..reads {
            let book_bytes = if turn == 1 { book.damaged(random) } else { bytes.clone() };
            let message = messages::message(random, &book);
            self.queue.push_back(requests::read_case(random, book_bytes, message));
        }
        let forms = Book::of_forms();
        for _ in 0..12 {
            let message = messages::of_forms(random);
            self.queue.push_back(requests::read_case(random, forms.bytes(), message));
        }
        let groups = Book::of_groups();
        for _ in 0..8 {
            let message = framed(reference::VERSIONS[1], 0, &Plan::of_groups(random).body());
            self.queue.push_back(requests::read_case(random, groups.bytes(), message));
            let plan = Plan::of_groups(random);
            let request = requests::laid_out(random, &plan);
            self.queue.push_back(requests::write_case(random, groups.bytes(), request));
        }
        if self.round % 10 == 5 {
            let message = messages::of_many_rows(random);
            self.queue.push_back(requests::read_case(random, forms.bytes(), message));
        }
        for turn in 0..writes {
            let book_bytes = if turn == 1 { book.damaged(random) } else { bytes.clone() };
            let request = requests::request(random, &book);
            self.queue.push_back(requests::write_case(random, book_bytes, request));
        }
        let very_long = self.round % 200 == 100;
        for _ in 0..2 {
            self.queue.push_back(requests::find_case(random, &book, very_long));
        }
        self.round += 1;
    }
}

impl Iterator for Cases {
    type Item = Case;

    fn next(&mut self) -> Option<Case> {
        if self.queue.is_empty() && self.round < self.rounds {
            self.begin_round();
        }
        self.queue.pop_front()
    }
}
