//! Sound books, small and large.

use super::Random;
use std::collections::HashSet;

/// Tag and flag.
pub type Member = (u16, u16);

#[derive(Clone)]
pub enum Record {
    Field {
        tag: u16,
        datatype: u16,
        partner: u16,
    },
    Message {
        text: [u8; 4],
        members: Vec<Member>,
    },
    Group {
        tag: u16,
        members: Vec<Member>,
    },
    /// A damaged record, from its length on.
    Raw(Vec<u8>),
}

#[derive(Clone)]
pub struct Book {
    pub records: Vec<Record>,
}

pub const LENGTH: u16 = 5;
pub const NUM_IN_GROUP: u16 = 7;
pub const DATA: u16 = 10;

/// Few tags, so that they meet often: short and long, some the beginning of others.
pub const TAGS: [u16; 44] = [
    1, 2, 3, 4, 5, 6, 7, 11, 12, 13, 14, 15, 16, 17, 18, 19, 20, 21, 22, 23, 24, 25, 26, 27, 28,
    29, 30, 34, 36, 80, 88, 90, 95, 96, 100, 101, 111, 255, 256, 350, 1010, 9999, 65534, 65535,
];
const TEXTS: [&[u8]; 10] =
    [b"D", b"0", b"A", b"AE", b"DD", b"BZ1", b"ABCD", b"ABCE", b"!", b"~!~!"];

/// A type text filled up with zeros.
pub fn padded(text: &[u8]) -> [u8; 4] {
    let mut whole = [0; 4];
    whole[..text.len()].copy_from_slice(text);
    whole
}

impl Record {
    pub fn bytes(&self) -> Vec<u8> {
        let (kind, content) = match self {
            Record::Field { tag, datatype, partner } => (1, words(&[*tag, *datatype, *partner])),
            Record::Message { text, members } => (2, [text.to_vec(), list(members)].concat()),
            Record::Group { tag, members } => (3, [words(&[*tag]), list(members)].concat()),
            Record::Raw(bytes) => return bytes.clone(),
        };
        [words(&[content.len() as u16 + 2, kind]), content].concat()
    }

    pub fn members(&self) -> Option<&Vec<Member>> {
        match self {
            Record::Message { members, .. } | Record::Group { members, .. } => Some(members),
            _ => None,
        }
    }

    pub fn members_mut(&mut self) -> Option<&mut Vec<Member>> {
        match self {
            Record::Message { members, .. } | Record::Group { members, .. } => Some(members),
            _ => None,
        }
    }
}

fn words(numbers: &[u16]) -> Vec<u8> {
    numbers.iter().flat_map(|number| number.to_le_bytes()).collect()
}

fn list(members: &[Member]) -> Vec<u8> {
    members.iter().flat_map(|&(tag, flag)| words(&[tag, flag])).collect()
}

impl Book {
    pub fn bytes(&self) -> Vec<u8> {
        self.records.iter().flat_map(Record::bytes).collect()
    }

    /// Datatype and partner of a tag.
    pub fn field(&self, wanted: u16) -> Option<(u16, u16)> {
        self.records.iter().find_map(|record| match record {
            Record::Field { tag, datatype, partner } if *tag == wanted => {
                Some((*datatype, *partner))
            }
            _ => None,
        })
    }

    pub fn group(&self, wanted: u16) -> Option<&[Member]> {
        self.records.iter().find_map(|record| match record {
            Record::Group { tag, members } if *tag == wanted => Some(members.as_slice()),
            _ => None,
        })
    }

    pub fn tags(&self) -> Vec<u16> {
        let tag = |record: &Record| match record {
            Record::Field { tag, .. } => Some(*tag),
            _ => None,
        };
        self.records.iter().filter_map(tag).collect()
    }

    /// The tags that are neither a Length nor a data.
    pub fn unpaired_tags(&self) -> Vec<u16> {
        let unpaired = |tag: &u16| self.field(*tag).is_some_and(|(_, partner)| partner == 0);
        self.tags().into_iter().filter(unpaired).collect()
    }

    /// Type text, without its zeros, and members of each message.
    pub fn messages(&self) -> Vec<(Vec<u8>, Vec<Member>)> {
        let message = |record: &Record| match record {
            Record::Message { text, members } => {
                let text = text.iter().copied().take_while(|&byte| byte != 0).collect();
                Some((text, members.clone()))
            }
            _ => None,
        };
        self.records.iter().filter_map(message).collect()
    }

    /// The tags of a member with all its groups opened; false where one was met before.
    fn open(&self, tag: u16, met: &mut HashSet<u16>) -> bool {
        met.insert(tag)
            && self.group(tag).is_none_or(|list| list.iter().all(|&(tag, _)| self.open(tag, met)))
    }

    /// A small sound book.
    pub fn sound(random: &mut Random) -> Book {
        let mut tags = TAGS.to_vec();
        random.shuffle(&mut tags);
        tags.truncate(random.range(3, TAGS.len()));
        let mut texts = TEXTS.to_vec();
        random.shuffle(&mut texts);
        let deep = random.chance(50);
        let mut maker = Maker { random, free: tags, book: Book { records: vec![] }, deep };
        let members = maker.list(4, 0);
        maker.add(Record::Message { text: padded(texts[0]), members });
        for text in &texts[1..maker.random.range(1, 4)] {
            let members = maker.list_of_known();
            maker.add(Record::Message { text: padded(text), members });
        }
        if maker.random.chance(40) {
            maker.unreached_group();
        }
        let Maker { random, mut book, .. } = maker;
        if random.chance(60) {
            random.shuffle(&mut book.records);
        }
        book
    }

    /// A sound book of about 16,384 bytes: a small one filled up with groups or messages if it
    /// comes to that, then with fields and a message of them.
    pub fn large(random: &mut Random) -> Book {
        let mut book = Book::sound(random);
        let target = *random.pick(&[16_384, 16_384, 16_382, 16_300, 16_200, 16_000]);
        let filling = random.below(3);
        let known = book.unpaired_tags();
        for at in 0..700 {
            let tag = 20_000 + at;
            if filling == 0 && !known.is_empty() {
                let members = vec![(*random.pick(&known), 1)];
                book.records.push(Record::Field { tag, datatype: NUM_IN_GROUP, partner: 0 });
                book.records.push(Record::Group { tag, members });
            }
            if filling == 1 {
                let text = [b'x', b'A' + (at / 64) as u8, b'0' + (at % 64) as u8, b'z'];
                book.records.push(Record::Message { text, members: vec![] });
            }
        }
        // What is left is for fields of 10 bytes and one message of 8, and 4 a member.
        let left = target - book.bytes().len() - 8;
        let (fewest, most) = (left.div_ceil(14), left / 10);
        let fits = |fields: &usize| (left - fields * 10) % 4 == 0;
        let counts: Vec<usize> = (fewest..=most).filter(fits).collect();
        let fields = if random.chance(50) { counts[0] } else { counts[counts.len() - 1] };
        let tag = |at: usize| 30_000 + at as u16;
        for at in 0..fields {
            book.records.push(Record::Field { tag: tag(at), datatype: 1, partner: 0 });
        }
        let members = (0..(left - fields * 10) / 4).map(|at| (tag(at), 0)).collect();
        book.records.push(Record::Message { text: *b"full", members });
        assert_eq!(book.bytes().len(), target);
        book
    }

    /// One message F with an optional field of each datatype, tag 100 and the datatype; the group
    /// of 107 holds 2, a char.
    pub fn of_forms() -> Book {
        let field = |datatype: u16| {
            let partner = match datatype {
                LENGTH => 100 + DATA,
                DATA => 100 + LENGTH,
                _ => 0,
            };
            Record::Field { tag: 100 + datatype, datatype, partner }
        };
        let mut records: Vec<Record> = (1..=16).map(field).collect();
        records.push(Record::Field { tag: 2, datatype: 2, partner: 0 });
        records.push(Record::Group { tag: 107, members: vec![(2, 1)] });
        let members = [1, 2, 3, 4, 5, 10, 6, 7, 8, 9, 11, 12, 13, 14, 15, 16];
        let members = members.map(|datatype| (100 + datatype, 0)).to_vec();
        records.push(Record::Message { text: padded(b"F"), members });
        Book { records }
    }
}

/// The tags of `Book::of_groups` in the order of the lists, groups opened.
pub const GROUP_TAGS: [u16; 16] = [20, 1, 2, 3, 4, 5, 6, 7, 11, 13, 14, 16, 17, 15, 18, 19];

impl Book {
    /// One message G with groups: 1 holds 4 and a pair, 13 starts with the count of another.
    pub fn of_groups() -> Book {
        let datatype = |tag| match tag {
            1 | 4 | 13 | 14 => NUM_IN_GROUP,
            7 | 18 => LENGTH,
            11 | 19 => DATA,
            _ => 1,
        };
        let partner = |tag| match tag {
            7 => 11,
            11 => 7,
            18 => 19,
            19 => 18,
            _ => 0,
        };
        let field = |tag| Record::Field { tag, datatype: datatype(tag), partner: partner(tag) };
        let group = |tag, members: &[Member]| Record::Group { tag, members: members.to_vec() };
        let mut records = GROUP_TAGS.map(field).to_vec();
        records.push(group(1, &[(2, 1), (3, 1), (4, 0), (7, 0), (11, 0)]));
        records.push(group(4, &[(5, 1), (6, 0)]));
        records.push(group(13, &[(14, 1), (15, 1)]));
        records.push(group(14, &[(16, 1), (17, 1)]));
        let members = vec![(20, 0), (1, 0), (13, 0), (18, 0), (19, 0)];
        records.push(Record::Message { text: padded(b"G"), members });
        Book { records }
    }
}

/// Makes a sound book, list by list.
struct Maker<'a> {
    random: &'a mut Random,
    free: Vec<u16>,
    book: Book,
    /// Whether to open groups at many places.
    deep: bool,
}

impl Maker<'_> {
    fn add(&mut self, record: Record) {
        self.book.records.push(record);
    }

    fn field(&mut self, tag: u16, datatype: u16, partner: u16) {
        self.add(Record::Field { tag, datatype, partner });
    }

    fn flag(&mut self) -> u16 {
        u16::from(self.random.chance(40))
    }

    /// A list of new tags, with groups at most `levels` deep, and at least `least` members if
    /// there are tags left.
    fn list(&mut self, levels: usize, least: usize) -> Vec<Member> {
        let mut members = vec![];
        for _ in 0..least + self.random.below(5) {
            let flag = self.flag();
            let turn = self.random.below(100);
            let groups_below = if self.deep { 75 } else { 40 };
            if self.free.len() >= 2 && turn < 20 {
                let (length, data) = (self.free.pop().unwrap(), self.free.pop().unwrap());
                self.field(length, LENGTH, data);
                self.field(data, DATA, length);
                members.extend([(length, flag), (data, flag)]);
            } else if self.free.len() >= 2 && levels > 0 && turn < groups_below {
                let count = self.group(levels);
                members.push((count, flag));
            } else if let Some(tag) = self.free.pop() {
                let plain = [1, 1, 2, 3, 4, 6, 8, 9, 11, 12, 13, 14, 15, 16];
                let datatype = *self.random.pick(&plain);
                self.field(tag, datatype, 0);
                members.push((tag, flag));
            }
        }
        members
    }

    /// A new group; gives its count. There are at least two free tags.
    fn group(&mut self, levels: usize) -> u16 {
        let count = self.free.pop().unwrap();
        self.field(count, NUM_IN_GROUP, 0);
        let mut members = self.list(levels - 1, 1);
        members[0].1 = 1;
        if self.book.field(members[0].0).unwrap().0 == LENGTH {
            members[1].1 = 1;
        }
        self.add(Record::Group { tag: count, members });
        count
    }

    /// A list of tags that are declared already, also by way of groups known from elsewhere.
    fn list_of_known(&mut self) -> Vec<Member> {
        let mut members = vec![];
        let mut met = HashSet::new();
        let tags = self.book.tags();
        for _ in 0..if tags.is_empty() { 0 } else { self.random.below(8) } {
            let tag = *self.random.pick(&tags);
            let (datatype, partner) = self.book.field(tag).unwrap();
            let mut with_this = met.clone();
            if datatype != DATA && self.book.open(tag, &mut with_this) {
                let flag = self.flag();
                members.push((tag, flag));
                if datatype == LENGTH {
                    members.push((partner, flag));
                }
                met = with_this;
            }
        }
        members
    }

    /// A group that no message reaches: it may hold itself, a tag twice, or nest deeper.
    fn unreached_group(&mut self) {
        let Some(count) = self.free.pop() else { return };
        let mut known = self.book.unpaired_tags();
        known.push(count);
        self.field(count, NUM_IN_GROUP, 0);
        let more = self.random.below(4);
        let mut members: Vec<Member> = (0..=more).map(|_| (*self.random.pick(&known), 0)).collect();
        members[0].1 = 1;
        self.add(Record::Group { tag: count, members });
    }
}
