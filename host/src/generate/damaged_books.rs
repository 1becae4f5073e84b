//! Damage to books, aimed at each of the nine rules; the reference says what it broke.

use super::books::{padded, Book, Member, Record, DATA, LENGTH, NUM_IN_GROUP, TAGS};
use super::Random;

impl Book {
    /// The book's bytes with one to three damages.
    pub fn damaged(&self, random: &mut Random) -> Vec<u8> {
        let mut book = self.clone();
        let count = *random.pick(&[1, 1, 1, 2, 3]);
        let mut aims: Vec<usize> = (0..count).map(|_| random.range(1, 9)).collect();
        // From the highest rule down: what is damaged in its form cannot be damaged further.
        aims.sort_by_key(|&rule| std::cmp::Reverse(rule));
        for &rule in aims.iter().filter(|&&rule| rule > 1) {
            book.damage(random, rule);
        }
        let mut bytes = book.bytes();
        if aims.contains(&1) {
            damage_lengths(random, &mut bytes);
        }
        bytes
    }

    /// Damages records, aiming at one of rules 2 to 9.
    fn damage(&mut self, random: &mut Random, rule: usize) {
        let tag = *random.pick(&TAGS);
        match rule {
            2 => self.damage_form(random),
            3 => {
                let tag = *random.pick(&[0, 8, 9, 35, 10, tag, tag, tag]);
                self.insert(random, Record::Field { tag, datatype: 1, partner: 0 });
            }
            4 => self.damage_field(random, tag),
            5 => self.damage_declarations(random, tag),
            6 => self.damage_pair(random, tag),
            7 => {
                if let Some(at) = self.pick(random, |r| matches!(r, Record::Group { .. })) {
                    let list = self.records[at].members_mut().unwrap();
                    let first = list[0].0;
                    list[0].1 = 0;
                    // A pair has equal flags.
                    let paired = self.field(first).is_some_and(|(_, partner)| partner != 0);
                    let list = self.records[at].members_mut().unwrap();
                    if paired && list.len() > 1 {
                        list[1].1 = 0;
                    }
                }
            }
            8 => {
                let text = padded(&random.pick(&self.messages()).0);
                self.insert(random, Record::Message { text, members: vec![] });
            }
            _ => self.damage_nesting(random),
        }
    }

    fn insert(&mut self, random: &mut Random, record: Record) {
        let place = random.below(self.records.len() + 1);
        self.records.insert(place, record);
    }

    /// Some record of those that are wanted.
    fn pick(&self, random: &mut Random, wanted: impl Fn(&Record) -> bool) -> Option<usize> {
        let all: Vec<usize> =
            (0..self.records.len()).filter(|&at| wanted(&self.records[at])).collect();
        (!all.is_empty()).then(|| *random.pick(&all))
    }

    /// Some list that is not empty, and a place in it.
    fn pick_list(&mut self, random: &mut Random) -> Option<(&mut Vec<Member>, usize)> {
        let at = self.pick(random, |r| r.members().is_some_and(|list| !list.is_empty()))?;
        let list = self.records[at].members_mut().unwrap();
        let place = random.below(list.len());
        Some((list, place))
    }

    /// Rule 2: another kind, another length, a bad type text.
    fn damage_form(&mut self, random: &mut Random) {
        let at = random.below(self.records.len());
        let mut bytes = self.records[at].bytes();
        match random.below(4) {
            0 => bytes[2] = *random.pick(&[0, 1, 2, 3, 4, 5, 255]),
            1 => bytes[3] = 1,
            2 => {
                let least = bytes.len().saturating_sub(5).max(4);
                bytes.resize(random.range(least, bytes.len() + 5), 0);
                let length = bytes.len() as u16 - 2;
                bytes[..2].copy_from_slice(&length.to_le_bytes());
            }
            _ => {
                let text = *random.pick(&[
                    b"A\0B\0", b"\0\0\0\0", b"\0A\0\0", b"A B\0", b"A\x7F\0\0", b"AB\x20\0",
                    b"AB\0C", b"\x01\0\0\0",
                ]);
                return self.insert(random, Record::Message { text: *text, members: vec![] });
            }
        }
        self.records[at] = Record::Raw(bytes);
    }

    /// Rule 4: a datatype or a partner that is not right.
    fn damage_field(&mut self, random: &mut Random, tag: u16) {
        if random.chance(40) {
            let datatype = *random.pick(&[0, 17, 18, 256, 266, 65535, 1, LENGTH, DATA]);
            let partner = if random.chance(50) { 0 } else { *random.pick(&TAGS) };
            return self.insert(random, Record::Field { tag, datatype, partner });
        }
        let Some(at) = self.pick(random, |r| matches!(r, Record::Field { .. })) else { return };
        let Record::Field { datatype, partner, .. } = &mut self.records[at] else { return };
        match random.below(3) {
            0 => *datatype = random.range(1, 17) as u16,
            1 => *partner = tag,
            _ => *partner = 0,
        }
    }

    /// Rule 5: members and groups that are not declared, or twice.
    fn damage_declarations(&mut self, random: &mut Random, tag: u16) {
        let group = self.pick(random, |r| matches!(r, Record::Group { .. }));
        match (random.below(6), group) {
            (0, _) => self.insert(random, Record::Group { tag, members: vec![(tag, 1)] }),
            (1, _) => {
                self.insert(random, Record::Field { tag, datatype: NUM_IN_GROUP, partner: 0 })
            }
            (2, Some(at)) => drop(self.records.remove(at)),
            (3, Some(at)) => self.insert(random, self.records[at].clone()),
            (turn, _) => {
                if let Some((list, at)) = self.pick_list(random) {
                    match turn {
                        4 => list[at].1 = *random.pick(&[2, 255, 256, 257, 65535]),
                        _ => list[at].0 = *random.pick(&[0, 8, 9, 10, 35, tag, 40_000]),
                    }
                }
            }
        }
    }

    /// Rule 6: a Length and its data apart, turned round, or with other flags.
    fn damage_pair(&mut self, random: &mut Random, tag: u16) {
        let unpaired = self.unpaired_tags();
        let paired: Vec<u16> =
            self.tags().into_iter().filter(|tag| !unpaired.contains(tag)).collect();
        if paired.is_empty() {
            return;
        }
        let odd = *random.pick(&paired);
        let is_paired = |member: &Member| paired.contains(&member.0);
        let at = self.pick(random, |r| r.members().is_some_and(|list| list.iter().any(is_paired)));
        let Some(at) = at.or_else(|| self.pick(random, |r| r.members().is_some())) else { return };
        let list = self.records[at].members_mut().unwrap();
        match (random.below(6), list.iter().position(is_paired)) {
            (0, _) | (_, None) => list.push((odd, 1)),
            (1, _) => list.insert(0, (odd, 1)),
            (2, Some(at)) => list[at].1 ^= 1,
            (3, Some(at)) => drop(list.remove(at)),
            (4, Some(at)) if at + 1 < list.len() => list.swap(at, at + 1),
            (_, Some(at)) => list.insert(at + 1, (tag, 0)),
        }
    }

    /// Rule 9: a tag twice in a message, a group twice or in itself, a fifth level.
    fn damage_nesting(&mut self, random: &mut Random) {
        let tags = self.unpaired_tags();
        if tags.is_empty() {
            return;
        }
        let again = *random.pick(&tags);
        if random.chance(60) {
            if let Some((list, at)) = self.pick_list(random) {
                let place = if random.chance(50) { list.len() } else { at + 1 };
                list.insert(place, (again, 0));
            }
            return;
        }
        // A chain of groups below a new message, about four deep, ending in a known tag.
        let levels = random.range(3, 6) as u16;
        for count in 50_000..50_000 + levels {
            self.records.push(Record::Field { tag: count, datatype: NUM_IN_GROUP, partner: 0 });
            let inner = if count + 1 == 50_000 + levels { again } else { count + 1 };
            self.records.push(Record::Group { tag: count, members: vec![(inner, 1)] });
        }
        self.insert(random, Record::Message { text: *b"deep", members: vec![(50_000, 0)] });
    }
}

/// Rule 1: cut, lengthened, or a length that does not fit.
fn damage_lengths(random: &mut Random, bytes: &mut Vec<u8>) {
    match random.below(5) {
        0 => bytes.truncate(bytes.len() - random.range(1, bytes.len().min(12))),
        1 => {
            let more = random.range(1, 7);
            bytes.extend(random.bytes(more));
        }
        2 => bytes.resize(random.range(16_383, 16_388), 0),
        _ => {
            // The length of some record, found by going along.
            let mut starts = vec![];
            let mut at = 0;
            while at + 2 <= bytes.len() {
                starts.push(at);
                at += 2 + usize::from(u16::from_le_bytes([bytes[at], bytes[at + 1]]));
            }
            let at = *random.pick(&starts);
            let length = *random.pick(&[0, 1, 2, 3, 9, 255, 65_535]);
            bytes[at..at + 2].copy_from_slice(&u16::to_le_bytes(length));
        }
    }
}
