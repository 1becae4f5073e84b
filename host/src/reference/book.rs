//! The book and its check.

use super::forms::{DATA, LENGTH, NUM_IN_GROUP};
use super::numbers;
use std::collections::{HashMap, HashSet};

pub const MOST_BOOK_BYTES: usize = 16_384;
const MOST_LEVELS: usize = 4;

/// The lowest rule broken, and the offset of the first record that breaks it.
#[derive(Clone, Copy, Debug, PartialEq, Eq)]
pub struct Broken {
    pub rule: u8,
    pub offset: usize,
}

#[derive(Clone, Copy)]
struct Field {
    tag: u16,
    datatype: u16,
    partner: u16,
}

#[derive(Clone, Copy)]
pub struct Member {
    pub tag: u16,
    flag: u16,
}

impl Member {
    pub fn required(&self) -> bool {
        self.flag == 1
    }
}

/// A record; a message's type text stands here without the zeros that fill it up.
enum Record {
    Field(Field),
    Message(Vec<u8>, Vec<Member>),
    Group(u16, Vec<Member>),
}

/// A book taken apart: its records with their offsets, and its fields and groups by tag.
pub struct Book {
    records: Vec<(usize, Record)>,
    fields: HashMap<u16, Field>,
    groups: HashMap<u16, Vec<Member>>,
}

/// Sound, or what is broken.
pub fn check(book: &[u8]) -> Result<(), Broken> {
    sound_book(book).map(|_| ())
}

/// The book taken apart, if it is sound. A rule is asked only where all lower ones hold.
pub fn sound_book(bytes: &[u8]) -> Result<Book, Broken> {
    let mut book = Book { records: vec![], fields: HashMap::new(), groups: HashMap::new() };
    for (offset, bytes) in cut(bytes).map_err(|offset| Broken { rule: 1, offset })? {
        let record = take_apart(bytes).ok_or(Broken { rule: 2, offset })?;
        match &record {
            Record::Field(field) => drop(book.fields.insert(field.tag, *field)),
            Record::Message(..) => {}
            Record::Group(tag, members) => drop(book.groups.insert(*tag, members.clone())),
        }
        book.records.push((offset, record));
    }
    let rules: [fn(&Book) -> Option<usize>; 7] = [
        Book::breaks_rule_3,
        Book::breaks_rule_4,
        Book::breaks_rule_5,
        Book::breaks_rule_6,
        Book::breaks_rule_7,
        Book::breaks_rule_8,
        Book::breaks_rule_9,
    ];
    for (rule, breaks) in (3..).zip(rules) {
        if let Some(offset) = breaks(&book) {
            return Err(Broken { rule, offset });
        }
    }
    Ok(book)
}

/// Rule 1: each record's offset and what stands behind its length; or where it fails.
fn cut(bytes: &[u8]) -> Result<Vec<(usize, &[u8])>, usize> {
    if bytes.len() > MOST_BOOK_BYTES {
        return Err(0);
    }
    let mut records = vec![];
    let mut at = 0;
    while at < bytes.len() {
        let (length, rest) = bytes[at..].split_at_checked(2).ok_or(at)?;
        let length = usize::from(numbers(length)[0]);
        if length < 2 || length > rest.len() {
            return Err(at);
        }
        records.push((at, &rest[..length]));
        at += 2 + length;
    }
    Ok(records)
}

/// Rule 2: a record of good kind, length and type text.
fn take_apart(bytes: &[u8]) -> Option<Record> {
    let (kind, content) = (numbers(&bytes[..2])[0], &bytes[2..]);
    match (kind, bytes.len()) {
        (1, 8) => {
            let part = numbers(content);
            Some(Record::Field(Field { tag: part[0], datatype: part[1], partner: part[2] }))
        }
        (2, length) if length >= 6 && (length - 6) % 4 == 0 => {
            Some(Record::Message(type_text(&content[..4])?, members(&content[4..])))
        }
        (3, length) if length >= 8 && (length - 4) % 4 == 0 => {
            Some(Record::Group(numbers(&content[..2])[0], members(&content[2..])))
        }
        _ => None,
    }
}

/// 1 to 4 bytes of 0x21 to 0x7E, then zeros; given back without the zeros.
fn type_text(bytes: &[u8]) -> Option<Vec<u8>> {
    let text: Vec<u8> = bytes.iter().copied().take_while(|&byte| byte != 0).collect();
    let filled_up = bytes[text.len()..].iter().all(|&byte| byte == 0);
    let printable = text.iter().all(|byte| (0x21..=0x7E).contains(byte));
    (!text.is_empty() && filled_up && printable).then_some(text)
}

fn members(bytes: &[u8]) -> Vec<Member> {
    numbers(bytes).chunks(2).map(|pair| Member { tag: pair[0], flag: pair[1] }).collect()
}

impl Book {
    pub fn datatype(&self, tag: u16) -> Option<u16> {
        self.fields.get(&tag).map(|field| field.datatype)
    }

    /// The partner of a Length or data.
    pub fn partner(&self, tag: u16) -> Option<u16> {
        self.fields.get(&tag).map(|field| field.partner)
    }

    /// The member list of the group with this count.
    pub fn group(&self, count: u16) -> Option<&[Member]> {
        self.groups.get(&count).map(Vec::as_slice)
    }

    /// The member list of the message with this type text.
    pub fn message(&self, wanted: &[u8]) -> Option<&[Member]> {
        self.records.iter().find_map(|(_, record)| match record {
            Record::Message(text, members) if text == wanted => Some(members.as_slice()),
            _ => None,
        })
    }

    /// The offset of the first record of which `bad` holds.
    fn first(&self, mut bad: impl FnMut(&Record) -> bool) -> Option<usize> {
        self.records.iter().find(|(_, record)| bad(record)).map(|(offset, _)| *offset)
    }

    fn breaks_rule_3(&self) -> Option<usize> {
        let mut seen = HashSet::new();
        self.first(|record| match record {
            Record::Field(f) => [0, 8, 9, 35, 10].contains(&f.tag) || !seen.insert(f.tag),
            _ => false,
        })
    }

    fn breaks_rule_4(&self) -> Option<usize> {
        let paired = |field: &Field, datatype| {
            let partner = self.fields.get(&field.partner);
            partner.is_some_and(|p| p.datatype == datatype && p.partner == field.tag)
        };
        self.first(|record| match record {
            Record::Field(field) => match field.datatype {
                LENGTH => !paired(field, DATA),
                DATA => !paired(field, LENGTH),
                1..=16 => field.partner != 0,
                _ => true,
            },
            _ => false,
        })
    }

    fn breaks_rule_5(&self) -> Option<usize> {
        let bad_member =
            |m: &Member| !self.fields.contains_key(&m.tag) || (m.flag != 0 && m.flag != 1);
        let mut seen = HashSet::new();
        self.first(|record| match record {
            Record::Field(f) => f.datatype == NUM_IN_GROUP && !self.groups.contains_key(&f.tag),
            Record::Message(_, members) => members.iter().any(bad_member),
            Record::Group(tag, members) => {
                self.datatype(*tag) != Some(NUM_IN_GROUP)
                    || !seen.insert(*tag)
                    || members.iter().any(bad_member)
            }
        })
    }

    fn breaks_rule_6(&self) -> Option<usize> {
        let is_pair = |length: &Member, data: &Member| {
            self.partner(length.tag) == Some(data.tag) && length.flag == data.flag
        };
        let bad_at = |list: &[Member], at: usize| match self.datatype(list[at].tag) {
            Some(LENGTH) => at + 1 == list.len() || !is_pair(&list[at], &list[at + 1]),
            Some(DATA) => at == 0 || !is_pair(&list[at - 1], &list[at]),
            _ => false,
        };
        self.first(|record| match record {
            Record::Field(_) => false,
            Record::Message(_, list) | Record::Group(_, list) => {
                (0..list.len()).any(|at| bad_at(list, at))
            }
        })
    }

    fn breaks_rule_7(&self) -> Option<usize> {
        self.first(|record| matches!(record, Record::Group(_, list) if !list[0].required()))
    }

    fn breaks_rule_8(&self) -> Option<usize> {
        let mut seen = HashSet::new();
        self.first(
            |record| matches!(record, Record::Message(text, _) if !seen.insert(text.clone())),
        )
    }

    fn breaks_rule_9(&self) -> Option<usize> {
        self.first(|record| match record {
            Record::Message(_, list) => !self.opens_well(list, MOST_LEVELS, &mut HashSet::new()),
            _ => false,
        })
    }

    /// Opens every group of a list: at most `levels` deep, no tag that was met before. It ends,
    /// since the levels fall, and soon, since the first tag met twice stops it.
    fn opens_well(&self, list: &[Member], levels: usize, met: &mut HashSet<u16>) -> bool {
        list.iter().all(|member| {
            met.insert(member.tag)
                && match self.group(member.tag) {
                    None => true,
                    Some(inner) => levels > 0 && self.opens_well(inner, levels - 1, met),
                }
        })
    }
}
