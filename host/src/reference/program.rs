//! The program: from standard input to what it prints.

use super::{read, Refusal, Row, MOST_BOOK_BYTES};

pub fn program(input: &[u8]) -> Vec<u8> {
    let mut lines = vec![];
    match rows_of(input) {
        Ok(rows) => {
            for row in &rows {
                lines.push(row.map(|number| number.to_string()).join(" "));
            }
            lines.push(format!("OK {}", rows.len()));
        }
        Err(Refusal { number, place, tag }) => {
            lines.push(format!("REFUSED {number} {place} {tag}"))
        }
    }
    lines.iter().flat_map(|line| format!("{line}\n").into_bytes()).collect()
}

fn rows_of(input: &[u8]) -> Result<Vec<Row>, Refusal> {
    let bad_input = Refusal::new(16, 0);
    if input.len() < 2 {
        return Err(bad_input);
    }
    let length = usize::from(u16::from_le_bytes([input[0], input[1]]));
    if length > MOST_BOOK_BYTES {
        return Err(Refusal::new(1, 0));
    }
    let rest = &input[2..];
    if rest.len() < length {
        return Err(bad_input);
    }
    let (book, message) = rest.split_at(length);
    read(book, message, usize::MAX)
}
