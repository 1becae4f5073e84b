//! Writing a message.

use super::book::{sound_book, Book};
use super::questions::value;
use super::reader::{read_by, MOST_MESSAGE_BYTES};
use super::{numbers, Refusal, SEPARATOR, VERSIONS};

/// What a caller asks to be written. Triples are little-endian bytes, six a triple.
#[derive(Clone, Copy)]
pub struct Request<'a> {
    pub version: u64,
    pub type_text: &'a [u8],
    pub triples: &'a [u8],
    pub values: &'a [u8],
}

/// The bytes of the message; `room` is how many the output takes.
pub fn write(book: &[u8], request: Request, room: usize) -> Result<Vec<u8>, Refusal> {
    let book = sound_book(book).map_err(|_| Refusal::new(1, 0))?;
    write_by(&book, request, room)
}

/// The same without refusal 1; only for a book known to be sound.
pub fn write_checked(book: &[u8], request: Request, room: usize) -> Result<Vec<u8>, Refusal> {
    let book = sound_book(book).expect("write_checked is for sound books");
    write_by(&book, request, room)
}

fn write_by(book: &Book, request: Request, room: usize) -> Result<Vec<u8>, Refusal> {
    let (version, fields) = taken_apart(request).ok_or(Refusal::new(16, 0))?;
    let message = written_out(version, request.type_text, &fields);
    if message.len() > MOST_MESSAGE_BYTES {
        return Err(Refusal::new(2, 0));
    }
    if message.len() > room {
        return Err(Refusal::new(18, 0));
    }
    let rows = read_by(book, &message, usize::MAX)?;

    // What was read: behind fields 8 and 9 the type, then the fields, and field 10.
    let index: Vec<u16> = rows.concat();
    let tag_and_value = |row: usize| (rows[row][0], value(&index, &message, row));
    let read_type = value(&index, &message, 2);
    let read_fields: Vec<(u16, &[u8])> = (3..rows.len() - 1).map(tag_and_value).collect();
    if read_type != request.type_text || read_fields != fields {
        return Err(Refusal::new(17, 0));
    }
    Ok(message)
}

/// The version text, and tag and value of each triple; None for a bad request.
fn taken_apart(request: Request<'_>) -> Option<(&'static [u8], Vec<(u16, &[u8])>)> {
    let version = VERSIONS.get(usize::try_from(request.version).ok()?)?;
    if request.triples.len() % 6 != 0 {
        return None;
    }
    let mut fields = vec![];
    for triple in numbers(request.triples).chunks(3) {
        let start = usize::from(triple[1]);
        let end = start + usize::from(triple[2]);
        fields.push((triple[0], request.values.get(start..end)?));
    }
    Some((version, fields))
}

fn written_out(version: &[u8], type_text: &[u8], fields: &[(u16, &[u8])]) -> Vec<u8> {
    let mut body = vec![];
    put_field(&mut body, 35, type_text);
    for (tag, value) in fields {
        put_field(&mut body, *tag, value);
    }
    let mut message = vec![];
    put_field(&mut message, 8, version);
    put_field(&mut message, 9, body.len().to_string().as_bytes());
    message.extend(body);
    let sum: u64 = message.iter().map(|&byte| u64::from(byte)).sum();
    put_field(&mut message, 10, format!("{:03}", sum % 256).as_bytes());
    message
}

fn put_field(out: &mut Vec<u8>, tag: u16, value: &[u8]) {
    out.extend(tag.to_string().as_bytes());
    out.push(b'=');
    out.extend(value);
    out.push(SEPARATOR);
}
