//! Calls of the reader, the writer and find, with the buffers lent to them.

use super::messages::{damage, framed, message, Piece, Plan};
use super::{Book, Case, Random, Request};
use crate::reference::{self, MOST_MESSAGE_BYTES, VERSIONS};

/// A reading with an index that is just long enough, one byte short, or of some other length.
pub fn read_case(random: &mut Random, book: Vec<u8>, message: Vec<u8>) -> Case {
    let rows = reference::read(&book, &message, usize::MAX).map_or(6, |rows| rows.len());
    let index_bytes = match random.below(20) {
        0..=3 => rows * 12,
        4 => rows * 12 - 1,
        5 => rows * 12 - 2,
        6 => rows * 12 - 12,
        7 => random.below(rows * 12),
        8 => 0,
        9 => 2_048 * 12,
        _ => rows * 12 + random.below(40),
    };
    Case::Read { book, message, index_bytes }
}

/// A writing with an output that is just long enough, one byte short, or of some other length.
pub fn write_case(random: &mut Random, book: Vec<u8>, request: Request) -> Case {
    let made = reference::write(&book, request.lent(), usize::MAX);
    let length = match made {
        Ok(message) => message.len(),
        Err(_) => 40 + request.triples.len() + request.values.len(),
    };
    let output_bytes = match random.below(20) {
        0..=3 => length,
        4 => length - 1,
        5 => random.below(length),
        6 => 0,
        7 => MOST_MESSAGE_BYTES + 100,
        _ => length + random.below(40),
    };
    Case::Write { book, request, output_bytes }
}

/// A request of the writer: good, damaged in its fields, or bad in itself.
pub fn request(random: &mut Random, book: &Book) -> Request {
    let mut plan = Plan::valid(random, book);
    match random.below(100) {
        0..=29 => {}
        30..=64 => {
            for _ in 0..*random.pick(&[1, 1, 1, 2, 3]) {
                damage(random, book, &mut plan);
            }
        }
        65..=79 => {
            for _ in 0..*random.pick(&[1, 1, 2]) {
                regroup(random, book, &mut plan);
            }
        }
        80..=84 => plan.type_text = odd_type(random, &plan.type_text),
        85..=91 => fit(random, book, &mut plan),
        _ => {
            let mut request = laid_out(random, &plan);
            make_bad(random, &mut request);
            return request;
        }
    }
    laid_out(random, &plan)
}

/// The same bytes, or nearly, from other fields: two put together, or one taken apart.
fn regroup(random: &mut Random, book: &Book, plan: &mut Plan) {
    let pieces = &mut plan.pieces;
    let count = pieces.len();
    if count == 0 {
        return;
    }
    let at = random.below(count);
    let joined =
        |value: &[u8], next: &Piece| [value, b"\x01", &next.tag, b"=", &next.value].concat();
    let pair = (1..count).find(|&at| {
        let data = pieces[at].number().and_then(|tag| book.field(tag));
        data.is_some_and(|(_, partner)| partner != 0 && Some(partner) == pieces[at - 1].number())
    });
    match random.below(5) {
        4 if pair.is_some() => {
            // The Length brings a data that takes in the one asked for: the same tags are read.
            let at = pair.unwrap();
            let tag = String::from_utf8_lossy(&pieces[at].tag).into_owned();
            let length = format!("y\x01{tag}=").len() + pieces[at].value.len();
            pieces[at - 1].value = format!("{length}\x01{tag}=y").into_bytes();
        }
        0 if at > 0 => {
            let next = pieces.remove(at);
            pieces[at - 1].value = joined(&pieces[at - 1].value, &next);
        }
        1 => {
            let next = pieces.remove(0);
            plan.type_text = joined(&plan.type_text, &next);
        }
        _ => {
            // Where a value holds `|`, digits and `=`, it may be two.
            for at in 0..count {
                let value = pieces[at].value.clone();
                let Some(cut) = value.iter().position(|&byte| byte == 1) else { continue };
                let Some(equals) = value[cut..].iter().position(|&byte| byte == b'=') else {
                    continue;
                };
                let tag = value[cut + 1..cut + equals].to_vec();
                let rest = value[cut + equals + 1..].to_vec();
                pieces[at].value.truncate(cut);
                pieces.insert(at + 1, Piece { tag, value: rest });
                return;
            }
        }
    }
}

fn odd_type(random: &mut Random, text: &[u8]) -> Vec<u8> {
    let odd: [Vec<u8>; 9] = [
        vec![],
        b"ABCDE".to_vec(),
        b"ZZ".to_vec(),
        [text, b"\0"].concat(),
        [text, b"\x01"].concat(),
        [text, b"\x0111=A"].concat(),
        b"\x01".to_vec(),
        [text, b"="].concat(),
        text[1..].to_vec(),
    ];
    random.pick(&odd).clone()
}

/// Makes the message about 8,192 bytes long, by a String if there is one.
fn fit(random: &mut Random, book: &Book, plan: &mut Plan) {
    let string = plan.pieces.iter().position(|piece| piece.datatype(book) == Some(1));
    let Some(at) = string.or_else(|| plan.pieces.len().checked_sub(1)) else { return };
    let target = MOST_MESSAGE_BYTES - 2 + random.below(5);
    // FIX.4.4 stands for all: with FIXT.1.1 it is one byte longer.
    let head = framed(VERSIONS[1], 0, &plan.body());
    let digits = plan.body().len().to_string().len();
    if let Some(more) = target.checked_sub(head.len() + 4 - digits.min(4)) {
        plan.pieces[at].value.extend(vec![b'x'; more]);
    }
}

/// Triples and values. The values stand in any order, and may share their bytes.
pub fn laid_out(random: &mut Random, plan: &Plan) -> Request {
    let fields: Vec<(u16, &[u8])> = plan
        .pieces
        .iter()
        .filter_map(|piece| Some((piece.number()?, piece.value.as_slice())))
        .collect();
    let mut order: Vec<usize> = (0..fields.len()).collect();
    let shared = random.chance(50);
    if random.chance(30) {
        random.shuffle(&mut order);
    }
    let mut values = vec![];
    let mut starts = vec![0; fields.len()];
    for &at in &order {
        let value = fields[at].1;
        let part = |part: &[u8]| part == value;
        let known = if shared { values.windows(value.len().max(1)).position(part) } else { None };
        starts[at] = match known {
            Some(start) => start,
            None => {
                values.extend(value);
                values.len() - value.len()
            }
        };
    }
    if random.chance(30) {
        values.extend(b"rest");
    }
    let triples = fields.iter().zip(&starts).flat_map(|((tag, value), start)| {
        [*tag, *start as u16, value.len() as u16].map(u16::to_le_bytes).concat()
    });
    Request {
        version: random.below(3) as u64,
        type_text: plan.type_text.clone(),
        triples: triples.collect(),
        values,
    }
}

/// A request that is refused with 16, or that only looks so.
fn make_bad(random: &mut Random, request: &mut Request) {
    let triples = request.triples.len() / 6;
    match random.below(3) {
        0 => {
            request.version = *random.pick(&[3, 4, 256, 1 << 16, 1 << 32, (1 << 32) + 1, u64::MAX])
        }
        1 => {
            let length = request.triples.len() + random.range(1, 6);
            request.triples.resize(length, 1);
        }
        _ if triples > 0 => {
            let at = random.below(triples) * 6;
            let end = request.values.len() as u16;
            let (start, length) = *random.pick(&[
                (end, 0),
                (end, 1),
                (end.saturating_add(1), 0),
                (end.saturating_add(1), 0),
                (end.saturating_sub(1), 1),
                (end.saturating_sub(1), 2),
                (65_535, 1),
                (65_535, 65_535),
                (1, 65_535),
                (0, 65_535),
            ]);
            request.triples[at + 2..at + 4].copy_from_slice(&u16::to_le_bytes(start));
            request.triples[at + 4..at + 6].copy_from_slice(&u16::to_le_bytes(length));
        }
        _ => request.triples = vec![0; 6],
    }
}

/// A question to an index: of a message, or of small random numbers, where much is found.
pub fn find_case(random: &mut Random, book: &Book, very_long: bool) -> Case {
    let text = message(random, book);
    let read = reference::read(&book.bytes(), &text, usize::MAX).unwrap_or_default();
    let mut numbers: Vec<u16> = if read.is_empty() || random.chance(50) || very_long {
        let rows = if very_long { 65_530 + random.below(60) } else { random.below(30) };
        let most = if very_long { 1 } else { 3 };
        (0..rows * 6).map(|_| random.below(most + 1) as u16).collect()
    } else {
        read.concat()
    };
    let rows = numbers.len() / 6;
    let mut wanted = [0, 4, 5].map(|_| random.below(4) as u64);
    if rows > 0 && random.chance(70) {
        // A row that is there; in a very long index the last one, and only that.
        let row = if very_long { rows - 1 } else { random.below(rows) };
        if very_long {
            numbers[row * 6] = 7;
        }
        wanted = [0, 4, 5].map(|part| u64::from(numbers[row * 6 + part]));
    }
    if random.chance(20) {
        wanted[random.below(3)] += *random.pick(&[1, 1 << 16, 1 << 32, 1 << 63]);
    }
    let mut index: Vec<u8> = numbers.iter().flat_map(|number| number.to_le_bytes()).collect();
    if random.chance(60) {
        // A rest that would hold the answer if it were a whole row, and that alone if need be.
        if random.chance(50) {
            wanted[0] = 999;
        }
        let [tag, count_row, instance] = wanted.map(|part| part as u16);
        let row = [tag, 0, 0, 0, count_row, instance].map(u16::to_le_bytes).concat();
        index.extend(&row[..random.below(12).max(random.below(12))]);
    }
    let [tag, count_row, instance] = wanted;
    Case::Find { index, count_row, instance, tag }
}
