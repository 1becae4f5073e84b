//! Document 01 in plain Rust. Nothing here is shared with the proved code: the two agree only
//! because they follow the same document. `|` in a comment is byte 0x01.

mod book;
mod forms;
mod program;
mod questions;
mod reader;
mod writer;

pub use book::{check, Broken, MOST_BOOK_BYTES};
pub use forms::accepts;
pub use program::program;
pub use questions::{find, value, walk};
pub use reader::{read, read_checked, Row, MOST_MESSAGE_BYTES};
pub use writer::{write, write_checked, Request};

/// The byte that ends a field.
pub const SEPARATOR: u8 = 0x01;

/// V, in the order in which the writer counts versions.
pub const VERSIONS: [&[u8]; 3] = [b"FIX.4.2", b"FIX.4.4", b"FIXT.1.1"];

/// A refusal of the reader, the writer or the program; the tag is 0 in all but 14.
#[derive(Clone, Copy, Debug, PartialEq, Eq)]
pub struct Refusal {
    pub number: u8,
    pub place: usize,
    pub tag: u16,
}

impl Refusal {
    pub fn new(number: u8, place: usize) -> Refusal {
        Refusal { number, place, tag: 0 }
    }
}

/// The whole 2-byte little-endian numbers of some bytes; an odd last byte is ignored.
pub fn numbers(bytes: &[u8]) -> Vec<u16> {
    bytes.chunks_exact(2).map(|pair| u16::from_le_bytes([pair[0], pair[1]])).collect()
}

fn all_digits(text: &[u8]) -> bool {
    !text.is_empty() && text.iter().all(u8::is_ascii_digit)
}

/// The value of a digit string, or None where it is above every 64-bit number. No count, length
/// or tag that can be met is that large, so None differs from all of them.
fn decimal(digits: &[u8]) -> Option<u64> {
    let mut value: u64 = 0;
    for digit in digits {
        value = value.checked_mul(10)?.checked_add(u64::from(digit - b'0'))?;
    }
    Some(value)
}
