//! Reading a message into rows.

use super::book::{sound_book, Book, Member};
use super::forms::{accepts, DATA, LENGTH, NUM_IN_GROUP};
use super::{all_digits, decimal, Refusal, SEPARATOR, VERSIONS};
use std::collections::HashMap;

pub const MOST_MESSAGE_BYTES: usize = 8_192;
const TRAILER_BYTES: usize = 7;

/// Tag, value start, value length, depth, row of the count, instance.
pub type Row = [u16; 6];

/// Reads a message; `room` is how many 16-bit numbers the index takes.
pub fn read(book: &[u8], message: &[u8], room: usize) -> Result<Vec<Row>, Refusal> {
    let book = sound_book(book).map_err(|_| Refusal::new(1, 0))?;
    read_by(&book, message, room)
}

/// The same without refusal 1; only for a book known to be sound.
pub fn read_checked(book: &[u8], message: &[u8], room: usize) -> Result<Vec<Row>, Refusal> {
    let book = sound_book(book).expect("read_checked is for sound books");
    read_by(&book, message, room)
}

pub fn read_by(book: &Book, message: &[u8], room: usize) -> Result<Vec<Row>, Refusal> {
    let mut reading = Reading::begin(book, message)?;
    while reading.at < reading.end {
        reading.field()?;
    }
    reading.finish()?;
    if reading.rows.len() * 6 > room {
        return Err(Refusal::new(15, message.len()));
    }
    Ok(reading.rows)
}

/// Where the first `|` from `start` on and before `end` stands.
fn separator(message: &[u8], start: usize, end: usize) -> Option<usize> {
    (start..end).find(|&at| message[at] == SEPARATOR)
}

/// The one place of each tag in a message: the list it stands in, named by its count (0 for the
/// message's own list), and its position there.
fn note_places(book: &Book, count: u16, list: &[Member], places: &mut HashMap<u16, (u16, usize)>) {
    for (position, member) in list.iter().enumerate() {
        places.insert(member.tag, (count, position));
        if let Some(inner) = book.group(member.tag) {
            note_places(book, member.tag, inner, places);
        }
    }
}

/// A list now being read: a group's, or outermost the message's own, which is like a group of one
/// instance whose members come in any order.
struct OpenList<'a> {
    count: u16,
    count_row: usize,
    members: &'a [Member],
    /// The number of instances asked for; None if it is above every 64-bit number.
    wanted: Option<u64>,
    /// How many instances have started.
    instances: u64,
    /// Positions of the members that stand in the last instance.
    present: Vec<usize>,
}

impl<'a> OpenList<'a> {
    fn new(count: u16, count_row: usize, members: &'a [Member], wanted: Option<u64>) -> Self {
        OpenList { count, count_row, members, wanted, instances: 0, present: vec![] }
    }

    /// The first required member missing from the last instance. Without any instance, none is.
    fn missing(&self) -> Option<u16> {
        let mut list = self.members.iter().enumerate();
        let missing = list.find(|(at, member)| member.required() && !self.present.contains(at));
        missing.filter(|_| self.instances > 0).map(|(_, member)| member.tag)
    }
}

/// A Length that was read, whose data comes next.
struct Waiting {
    partner: u16,
    length: Option<u64>,
}

struct Reading<'a> {
    book: &'a Book,
    message: &'a [u8],
    places: HashMap<u16, (u16, usize)>,
    /// Where the next field starts, and where the closing `10=` stands.
    at: usize,
    end: usize,
    rows: Vec<Row>,
    /// The message's own list, then the groups now being read, outermost first.
    open: Vec<OpenList<'a>>,
    waiting: Option<Waiting>,
}

impl<'a> Reading<'a> {
    /// Refusals 2 to 7; then what is known before the first field.
    fn begin(book: &'a Book, message: &'a [u8]) -> Result<Reading<'a>, Refusal> {
        if message.len() > MOST_MESSAGE_BYTES {
            return Err(Refusal::new(2, 0));
        }
        let starts_with =
            |version: &&&[u8]| message.starts_with(&[b"8=", **version, b"\x01"].concat());
        let version = VERSIONS.iter().find(starts_with).ok_or(Refusal::new(3, 0))?;
        let after_8 = 2 + version.len() + 1;

        let wrong_9 = Refusal::new(4, after_8);
        let digits_end = separator(message, after_8, message.len()).ok_or(wrong_9)?;
        let digits = message[after_8..digits_end].strip_prefix(b"9=").ok_or(wrong_9)?;
        let after_9 = digits_end + 1;
        if !all_digits(digits) || after_9 + TRAILER_BYTES > message.len() {
            return Err(wrong_9);
        }
        let end = message.len() - TRAILER_BYTES;
        if decimal(digits) != Some((end - after_9) as u64) {
            return Err(wrong_9);
        }

        let trailer = &message[end..];
        if !trailer.starts_with(b"10=") || !all_digits(&trailer[3..6]) || trailer[6] != SEPARATOR {
            return Err(Refusal::new(5, end));
        }
        let sum: u64 = message[..end].iter().map(|&byte| u64::from(byte)).sum();
        if decimal(&trailer[3..6]) != Some(sum % 256) {
            return Err(Refusal::new(6, end));
        }

        let wrong_35 = Refusal::new(7, after_9);
        let type_end = separator(message, after_9, end).ok_or(wrong_35)?;
        let type_text = message[after_9..type_end].strip_prefix(b"35=").ok_or(wrong_35)?;
        let members = book.message(type_text).ok_or(wrong_35)?;

        let mut places = HashMap::new();
        note_places(book, 0, members, &mut places);
        let mut own = OpenList::new(0, 0, members, Some(1));
        own.instances = 1;
        let row =
            |tag, start: usize, end: usize| [tag, start as u16, (end - start) as u16, 0, 0, 0];
        let rows = vec![
            row(8, 2, after_8 - 1),
            row(9, after_8 + 2, digits_end),
            row(35, after_9 + 3, type_end),
        ];
        let at = type_end + 1;
        Ok(Reading { book, message, places, at, end, rows, open: vec![own], waiting: None })
    }

    /// A fault of the field that starts here, or of `10=` at the end.
    fn fault(&self, number: u8) -> Refusal {
        Refusal::new(number, self.at)
    }

    fn fault_14(&self, tag: u16) -> Refusal {
        Refusal { number: 14, place: self.at, tag }
    }

    /// Reads the field that starts here, in the document's four steps.
    fn field(&mut self) -> Result<(), Refusal> {
        let (tag, start) = self.tag_form().ok_or(self.fault(8))?;
        let waiting = self.waiting.take();
        self.pairing(tag, &waiting)?;
        // A tag above 65,535 has no place.
        let tag = tag.ok_or(self.fault(9))?;
        self.go_to_place(tag)?;
        let datatype = self.book.datatype(tag).expect("members are declared");
        let end = match waiting {
            Some(waiting) => self.data_end(start, waiting.length)?,
            None => self.plain_end(start, datatype)?,
        };
        self.at = end + 1;

        let depth = self.open.len() - 1;
        let list = &self.open[depth];
        let instance = if depth == 0 { 0 } else { list.instances as usize };
        let row = [usize::from(tag), start, end - start, depth, list.count_row, instance];
        self.rows.push(row.map(|number| u16::try_from(number).expect("messages are short")));

        let value = &self.message[start..end];
        if datatype == LENGTH {
            let partner = self.book.partner(tag).expect("a Length has a partner");
            self.waiting = Some(Waiting { partner, length: decimal(value) });
        }
        if datatype == NUM_IN_GROUP {
            let members = self.book.group(tag).expect("a count has a group");
            let count_row = self.rows.len() - 1;
            self.open.push(OpenList::new(tag, count_row, members, decimal(value)));
        }
        Ok(())
    }

    /// Step 1: the tag, None if it is above 65,535, and where the value starts.
    fn tag_form(&self) -> Option<(Option<u16>, usize)> {
        let field = &self.message[self.at..self.end];
        let equals = field.iter().position(|&byte| byte == b'=')?;
        let digits = &field[..equals];
        if !all_digits(digits) || digits[0] == b'0' {
            return None;
        }
        let tag = decimal(digits).and_then(|number| u16::try_from(number).ok());
        Some((tag, self.at + equals + 1))
    }

    /// Step 2: Length and data stand together.
    fn pairing(&self, tag: Option<u16>, waiting: &Option<Waiting>) -> Result<(), Refusal> {
        let is_data = |tag| self.book.datatype(tag) == Some(DATA) && self.places.contains_key(&tag);
        let good = match waiting {
            Some(waiting) => tag == Some(waiting.partner),
            None => !tag.is_some_and(is_data),
        };
        if good {
            Ok(())
        } else {
            Err(self.fault(12))
        }
    }

    /// Step 3: goes outward to the list that holds the tag, and to its place there.
    fn go_to_place(&mut self, tag: u16) -> Result<(), Refusal> {
        let no_place = self.fault(9);
        let (count, position) = *self.places.get(&tag).ok_or(no_place)?;
        let depth = self.open.iter().position(|list| list.count == count).ok_or(no_place)?;
        while self.open.len() > depth + 1 {
            self.close_innermost()?;
        }
        let list = &self.open[depth];
        if depth > 0 && position == 0 {
            if let Some(missing) = list.missing() {
                return Err(self.fault_14(missing));
            }
            if list.wanted == Some(list.instances) {
                return Err(self.fault(13));
            }
            self.open[depth].instances += 1;
            self.open[depth].present.clear();
        } else if list.instances == 0 {
            return Err(self.fault(13));
        } else if list.present.contains(&position) {
            return Err(self.fault(10));
        } else if depth > 0 && list.present.iter().any(|&other| other > position) {
            return Err(self.fault(9));
        }
        self.open[depth].present.push(position);
        Ok(())
    }

    fn close_innermost(&mut self) -> Result<(), Refusal> {
        let list = self.open.pop().expect("a list is open");
        match list.missing() {
            Some(missing) => Err(self.fault_14(missing)),
            None if list.wanted != Some(list.instances) => Err(self.fault(13)),
            None => Ok(()),
        }
    }

    /// Step 4 for data: where it ends, by its Length. The `|` behind it, too, must stand before
    /// the closing `10=`.
    fn data_end(&self, start: usize, length: Option<u64>) -> Result<usize, Refusal> {
        let room = (self.end - start) as u64;
        match length {
            Some(0) => Err(self.fault(8)),
            Some(length) if length < room && self.message[start + length as usize] == SEPARATOR => {
                Ok(start + length as usize)
            }
            _ => Err(self.fault(12)),
        }
    }

    /// Step 4 for everything else: where it ends, by its `|`.
    fn plain_end(&self, start: usize, datatype: u16) -> Result<usize, Refusal> {
        match separator(self.message, start, self.end) {
            None => Err(self.fault(8)),
            Some(end) if end == start => Err(self.fault(8)),
            Some(end) if !accepts(datatype, &self.message[start..end]) => Err(self.fault(11)),
            Some(end) => Ok(end),
        }
    }

    /// The end: a waiting Length, the groups, the message; then the row of field 10.
    fn finish(&mut self) -> Result<(), Refusal> {
        if self.waiting.is_some() {
            return Err(self.fault(12));
        }
        while !self.open.is_empty() {
            self.close_innermost()?;
        }
        self.rows.push([10, (self.end + 3) as u16, 3, 0, 0, 0]);
        Ok(())
    }
}
