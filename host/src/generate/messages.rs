//! Messages of a book: valid, or damaged in their fields with length and sum repaired, or damaged
//! in their frame.

use super::books::{Member, GROUP_TAGS};
use super::values::{data, digits, good, near};
use super::{Book, Random};
use crate::reference::{MOST_MESSAGE_BYTES, SEPARATOR, VERSIONS};

/// A field as text.
#[derive(Clone)]
pub struct Piece {
    pub tag: Vec<u8>,
    pub value: Vec<u8>,
}

impl Piece {
    fn new(tag: u16, value: Vec<u8>) -> Piece {
        Piece { tag: tag.to_string().into_bytes(), value }
    }

    pub fn number(&self) -> Option<u16> {
        std::str::from_utf8(&self.tag).ok()?.parse().ok()
    }

    pub fn datatype(&self, book: &Book) -> Option<u16> {
        Some(book.field(self.number()?)?.0)
    }
}

/// A message before it is framed.
#[derive(Clone)]
pub struct Plan {
    pub type_text: Vec<u8>,
    pub pieces: Vec<Piece>,
}

impl Plan {
    /// A plan that keeps every rule of the book, though the message may be too long.
    pub fn valid(random: &mut Random, book: &Book) -> Plan {
        let messages = book.messages();
        // Only the first few: the filling of a large book comes behind them.
        let (text, members) = &messages[random.below(messages.len().min(5))];
        let optional = *random.pick(&[20, 60, 60, 90, 100]);
        let most_instances = *random.pick(&[1, 2, 2, 3, 3, 5, 30]);
        let mut filler = Filler { random, book, optional, most_instances, left: 150 };
        let mut units = filler.units(members);
        random.shuffle(&mut units);
        Plan { type_text: text.clone(), pieces: units.concat() }
    }

    /// Fields of `Book::of_groups`, mostly but not always in the order of the lists.
    pub fn of_groups(random: &mut Random) -> Plan {
        let mut pieces = vec![];
        let mut at = *random.pick(&[0, 1, 1, 1, 9, 9, 9, 14]);
        for _ in 0..random.range(1, 16) {
            let tag = GROUP_TAGS[at];
            let value = match tag {
                1 | 4 | 13 | 14 => *random.pick(b"11223"),
                7 | 18 => b'1',
                _ => b'x',
            };
            pieces.push(Piece::new(tag, vec![value]));
            at = match random.below(20) {
                0..=12 => (at + 1) % GROUP_TAGS.len(),
                // The first members of the groups, and the counts.
                13..=18 => *random.pick(&[2, 2, 5, 10, 11, 4, 1, 9]),
                _ => random.below(GROUP_TAGS.len()),
            };
        }
        Plan { type_text: b"G".to_vec(), pieces }
    }

    /// What field 9 counts.
    pub fn body(&self) -> Vec<u8> {
        let mut body = field(b"35", &self.type_text);
        for piece in &self.pieces {
            body.extend(field(&piece.tag, &piece.value));
        }
        body
    }
}

fn field(tag: &[u8], value: &[u8]) -> Vec<u8> {
    [tag, b"=", value, &[SEPARATOR]].concat()
}

/// A body with its header and trailer, and zeros in front of the length.
pub fn framed(version: &[u8], zeros: usize, body: &[u8]) -> Vec<u8> {
    let length = format!("{}{}", "0".repeat(zeros), body.len());
    let head = [field(b"8", version), field(b"9", length.as_bytes()), body.to_vec()].concat();
    with_sum(head)
}

fn with_sum(mut head: Vec<u8>) -> Vec<u8> {
    let sum = head.iter().fold(0u8, |sum, byte| sum.wrapping_add(*byte));
    head.extend(field(b"10", format!("{sum:03}").as_bytes()));
    head
}

struct Filler<'a> {
    random: &'a mut Random,
    book: &'a Book,
    optional: usize,
    most_instances: usize,
    /// When this many fields stand, it goes on sparingly.
    left: usize,
}

impl Filler<'_> {
    /// For each member that is put in: the field, the pair, or the count with its instances.
    fn units(&mut self, members: &[Member]) -> Vec<Vec<Piece>> {
        let mut units = vec![];
        for &(tag, flag) in members {
            let (datatype, partner) = self.book.field(tag).expect("a sound book");
            let wanted = self.left > 0 && self.random.chance(self.optional);
            if datatype == 10 || (flag == 0 && !wanted) {
                continue;
            }
            self.left = self.left.saturating_sub(1);
            units.push(match datatype {
                5 => {
                    let parts = *self.random.pick(&[1, 1, 2, 3, 4, 8, 60]);
                    let value = data(self.random, parts);
                    let length = digits(self.random, value.len());
                    vec![Piece::new(tag, length), Piece::new(partner, value)]
                }
                7 => {
                    let most = if self.left > 0 { self.most_instances } else { 1 };
                    let count = self.random.range(1, most);
                    let mut unit = vec![Piece::new(tag, digits(self.random, count))];
                    let members = self.book.group(tag).expect("a sound book");
                    for _ in 0..count {
                        unit.extend(self.units(members).concat());
                    }
                    unit
                }
                _ => vec![Piece::new(tag, good(self.random, datatype))],
            });
        }
        units
    }
}

/// Damages the fields of a plan in one way.
pub fn damage(random: &mut Random, book: &Book, plan: &mut Plan) {
    let tags = book.tags();
    let pieces = &mut plan.pieces;
    let count = pieces.len();
    if count == 0 || tags.is_empty() {
        let value = good(random, 1);
        return pieces.push(Piece::new(*random.pick(&[11, 95, 0, 65_535]), value));
    }
    let at = random.below(count);
    let other = random.below(count + 1);
    match random.below(17) {
        0 | 14 => drop(pieces.remove(at)),
        1 => pieces.insert(other, pieces[at].clone()),
        2 if at + 1 < count => pieces.swap(at, at + 1),
        2 | 3 => {
            let moved = pieces.remove(at);
            pieces.insert(other.min(count - 1), moved);
        }
        4 => pieces[at].tag = random.pick(&tags).to_string().into_bytes(),
        5 => pieces[at].tag = odd_tag(random, &pieces[at].tag),
        6 | 7 => pieces[at].value = near(random, pieces[at].datatype(book).unwrap_or(1)),
        8 | 15 | 16 => {
            let numeric: Vec<usize> =
                (0..count).filter(|&at| matches!(pieces[at].datatype(book), Some(5 | 7))).collect();
            if !numeric.is_empty() {
                let at = *random.pick(&numeric);
                pieces[at].value = odd_number(random, &pieces[at].value);
            }
        }
        9 => {
            // A field of the book somewhere, of a pair perhaps only one half.
            let tag = *random.pick(&tags);
            let (datatype, partner) = book.field(tag).expect("declared");
            let value = match datatype {
                5 | 7 => vec![b'1'],
                10 => vec![b'x'],
                _ => good(random, datatype),
            };
            if datatype == 5 && random.chance(60) {
                pieces.insert(other, Piece::new(partner, vec![b'x']));
            }
            pieces.insert(other, Piece::new(tag, value));
        }
        10 => pieces.truncate(at),
        11 => {
            let more: [&[u8]; 5] =
                [b"\x01", b"\x0111=Z", b"\x01x", b"\x0110=000\x01", b"\x01=\x01"];
            pieces[at].value.extend(*random.pick(&more));
        }
        12 => {
            let end = random.range(at + 1, count.min(at + 6));
            let run = pieces[at..end].to_vec();
            pieces.splice(end..end, run);
        }
        _ => drop(pieces.drain(at..random.range(at + 1, count.min(at + 6)))),
    }
}

fn odd_tag(random: &mut Random, tag: &[u8]) -> Vec<u8> {
    let number: u128 =
        std::str::from_utf8(tag).ok().and_then(|text| text.parse().ok()).unwrap_or(11);
    let text = match random.below(15) {
        14 => format!("{number}{}x", "0".repeat(40)),
        0 => format!("0{number}"),
        1 => format!("{}", number + (1 << 16)),
        2 => format!("{}", number + (1 << 32)),
        3 => format!("{}", number + (1 << 64)),
        4 => format!("{number}{}", "0".repeat(40)),
        5 => format!("{number} "),
        6 => format!("+{number}"),
        7 => format!("-{number}"),
        8 => format!("{number}a"),
        9 => String::new(),
        10 => "0".to_string(),
        _ => random.pick(&["8", "9", "35", "10", "40000"]).to_string(),
    };
    text.into_bytes()
}

/// Another number in place of a count or a Length.
fn odd_number(random: &mut Random, digits: &[u8]) -> Vec<u8> {
    let text = String::from_utf8_lossy(digits).into_owned();
    let number: u128 = text.parse().unwrap_or(1);
    let text = match random.below(12) {
        0 | 1 => format!("{}", number + 1),
        2 | 3 => format!("{}", number.saturating_sub(1)),
        4 => "0".to_string(),
        5 => "0".repeat(random.range(2, 30)),
        6 => format!("{}", number + (1 << 16)),
        7 => format!("{}", number + (1 << 32)),
        8 => format!("{}", number + (1 << 64)),
        9 => format!("{number}{}", "0".repeat(300)),
        10 => format!("{}{number}", "0".repeat(random.range(10, 5000))),
        _ => format!("{}", random.below(200)),
    };
    text.into_bytes()
}

/// A message to be read.
pub fn message(random: &mut Random, book: &Book) -> Vec<u8> {
    let version = *random.pick(&VERSIONS);
    let zeros = *random.pick(&[0, 0, 0, 0, 1, 2, 30]);
    let mut plan = Plan::valid(random, book);
    match random.below(100) {
        0..=24 => framed(version, zeros, &plan.body()),
        25..=69 => {
            for _ in 0..*random.pick(&[1, 1, 1, 2, 2, 4]) {
                damage(random, book, &mut plan);
            }
            framed(version, zeros, &plan.body())
        }
        70..=79 => {
            let mut body = plan.body();
            for _ in 0..random.range(1, 3) {
                match random.below(6) {
                    // The end of the last field, its `|` first.
                    0 => body.truncate(body.len() - random.range(1, 2)),
                    _ => edit_bytes(random, &mut body),
                }
            }
            framed(version, zeros, &body)
        }
        80..=92 => damaged_frame(random, version, &plan),
        _ => {
            if random.chance(30) {
                damage(random, book, &mut plan);
            }
            let target = MOST_MESSAGE_BYTES - 1 + random.below(4);
            fitted(random, book, version, plan, target)
        }
    }
}

/// A message of `Book::of_forms` with one field, whose value is near the edge of its form.
pub fn of_forms(random: &mut Random) -> Vec<u8> {
    // Those with many parts more often.
    let datatype = *random.pick(&[
        1, 2, 3, 4, 5, 6, 7, 8, 9, 10, 11, 12, 13, 14, 15, 16, 11, 12, 12, 14, 14, 15, 15, 15,
    ]);
    let value = if random.chance(80) { near(random, datatype) } else { good(random, datatype) };
    let pieces = match datatype {
        5 => vec![Piece::new(105, value), Piece::new(110, vec![b'x'])],
        7 => vec![Piece::new(107, value), Piece::new(2, vec![b'x'])],
        10 => vec![Piece::new(105, vec![b'3']), Piece::new(110, data(random, 3))],
        _ => vec![Piece::new(100 + datatype, value)],
    };
    framed(VERSIONS[1], 0, &Plan { type_text: b"F".to_vec(), pieces }.body())
}

/// A message of `Book::of_forms` with about 2,040 rows.
pub fn of_many_rows(random: &mut Random) -> Vec<u8> {
    let count = random.range(2_030, 2_040);
    let instances = vec![Piece::new(2, vec![b'x']); count + random.below(10) / 9];
    let pieces = [vec![Piece::new(107, digits(random, count))], instances].concat();
    framed(VERSIONS[0], 0, &Plan { type_text: b"F".to_vec(), pieces }.body())
}

/// A byte changed, put in or taken out.
fn edit_bytes(random: &mut Random, bytes: &mut Vec<u8>) {
    let at = random.below(bytes.len());
    let byte = *random.pick(b"\x01\x01==001235789-.: AYN\x00\xFF");
    match random.below(4) {
        0 | 1 => bytes[at] = byte,
        2 => bytes.insert(at, byte),
        _ if bytes.len() > 1 => drop(bytes.remove(at)),
        _ => {}
    }
}

/// The message made just so long, by a String, by a Length's zeros, or by those of field 9.
fn fitted(
    random: &mut Random,
    book: &Book,
    version: &[u8],
    mut plan: Plan,
    target: usize,
) -> Vec<u8> {
    let message = framed(version, 0, &plan.body());
    if message.len() >= target {
        return message;
    }
    let wanted: u16 = if random.chance(50) { 1 } else { *random.pick(&[5, 7]) };
    let place = plan.pieces.iter().position(|piece| piece.datatype(book) == Some(wanted));
    if let Some(at) = place {
        // Field 9 grows to four digits, of which it has some already.
        let digits = plan.body().len().to_string().len();
        let more = (target - message.len()).saturating_sub(4 - digits.min(4));
        let filler = if wanted == 1 { b'x' } else { b'0' };
        plan.pieces[at].value.splice(0..0, vec![filler; more]);
    }
    let message = framed(version, 0, &plan.body());
    framed(version, target.saturating_sub(message.len()), &plan.body())
}

fn damaged_frame(random: &mut Random, version: &[u8], plan: &Plan) -> Vec<u8> {
    let body = plan.body();
    let whole = framed(version, 0, &body);
    match random.below(24) {
        0 | 1 | 19 | 20 => {
            let odd: [&[u8]; 9] = [
                b"FIX.4.3", b"FIX.4.40", b"FIX.4.", b"fix.4.4", b"FIXT.1.2", b"FIXT.1.1 ", b"",
                b"FIX.4.4\x01\x01", b"FIX\x01.4.4",
            ];
            framed(random.pick::<&[u8]>(&odd), 0, &body)
        }
        2 => whole[..random.below(whole.len())].to_vec(),
        3 => {
            let more = random.range(1, 9);
            [whole, random.bytes(more)].concat()
        }
        4..=6 => {
            let length = body.len() as u128;
            let odd: [String; 14] = [
                format!("{}", length + 1),
                format!("{}", length.saturating_sub(1)),
                format!("{}", length + (1 << 16)),
                format!("{}", length + (1 << 32)),
                format!("{}", length + (1 << 64)),
                String::new(),
                format!("+{length}"),
                format!("{length} "),
                format!("-{length}"),
                format!("{length}a"),
                format!("{length}\x01"),
                "x".to_string(),
                format!("0x{length}"),
                "0".to_string(),
            ];
            let head =
                [field(b"8", version), field(b"9", random.pick(&odd).as_bytes()), body].concat();
            with_sum(head)
        }
        7 => {
            let odd: [&[u8]; 4] = [b"", b"09", b"90", b"35"];
            let tag = random.pick::<&[u8]>(&odd);
            with_sum([field(b"8", version), field(tag, b"5"), body].concat())
        }
        8 => with_sum(field(b"8", version)),
        9 | 10 | 15 | 16 | 21 | 22 => {
            let mut message = whole;
            let at = message.len() - 1 - random.below(7);
            message[at] = *random.pick(b"\x01=0123456789:://  a");
            message
        }
        11 | 17 | 18 => {
            // The right sum and 256 or 512 more, if that has three digits.
            let mut message = whole;
            let at = message.len() - 4;
            let sum: usize = std::str::from_utf8(&message[at..at + 3]).unwrap().parse().unwrap();
            let sum = (sum + 256 * random.range(1, 2)).min(999);
            message[at..at + 3].copy_from_slice(format!("{sum:03}").as_bytes());
            message
        }
        12 | 13 => {
            let text = &plan.type_text;
            let odd: [Vec<u8>; 7] = [
                vec![],
                b"ZZ".to_vec(),
                [text.as_slice(), b"\0"].concat(),
                [text.as_slice(), b"\0\0\0"].concat(),
                [text.as_slice(), b"AAAA"].concat(),
                text[..text.len() - 1].to_vec(),
                [b" ", text.as_slice()].concat(),
            ];
            let type_text = random.pick(&odd).clone();
            framed(version, 0, &Plan { type_text, pieces: plan.pieces.clone() }.body())
        }
        14 => {
            // No field 35 at once, or no `|` behind it.
            let rest = body[field(b"35", &plan.type_text).len()..].to_vec();
            let head: [Vec<u8>; 6] = [
                vec![],
                [b"35=".as_slice(), &plan.type_text].concat(),
                [b"035=".as_slice(), &plan.type_text, b"\x01"].concat(),
                [b"11=A\x0135=".as_slice(), &plan.type_text, b"\x01"].concat(),
                b"35".to_vec(),
                b"35=".to_vec(),
            ];
            let rest = if random.chance(50) { rest } else { vec![] };
            framed(version, 0, &[random.pick(&head).clone(), rest].concat())
        }
        _ => {
            let mut message = whole;
            edit_bytes(random, &mut message);
            message
        }
    }
}
