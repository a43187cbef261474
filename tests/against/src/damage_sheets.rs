//! Damaged sheets, byte by byte and field by field.

use crate::random::Random;
use paper::sheet::{self, Record, Sheet, MOST_RECORDS};

/// The parts of a sheet, written as they are, whether they agree or not.
struct Parts {
    length: Length,
    version: u8,
    /// Each record with its count byte.
    records: Vec<Vec<u8>>,
    after: Vec<u8>,
    /// The number of bytes to keep.
    cut: Option<usize>,
}

/// The first two bytes: the number of bytes that follow, or any number.
enum Length {
    Told,
    Is(u16),
}

type Damage = fn(&mut Parts, &mut Random);

const DAMAGES: [(&str, Damage); 22] = [
    ("sheet: length", length),
    ("sheet: version", version),
    ("sheet: the other version", other_version),
    ("sheet: kind", kind),
    ("sheet: count", count),
    ("sheet: operand", operand),
    ("sheet: constant", constant),
    ("sheet: cut", cut),
    ("sheet: cut, length agrees", cut_told),
    ("sheet: longer", longer),
    ("sheet: longer, length agrees", longer_told),
    ("sheet: record removed", removed),
    ("sheet: record twice", twice),
    ("sheet: records swapped", swapped),
    ("sheet: 256 records", records_256),
    ("sheet: 257 records", records_257),
    ("sheet: byte after 256 records", byte_after_256),
    ("sheet: solid arithmetic", solid_arithmetic),
    ("sheet: no records", no_records),
    ("sheet: under 3 bytes", under_3),
    ("sheet: random records", random_records),
    ("sheet: as long as two bytes can say", longest),
];

/// Damages a good sheet in one field, in two, or in one byte.
pub fn damaged(sheet: &Sheet, random: &mut Random) -> (&'static str, Vec<u8>) {
    if random.once_in(6) {
        let mut bytes = sheet::write(sheet.version, &sheet.records);
        let at = random.below(bytes.len());
        bytes[at] = random.byte();
        return ("sheet: a byte", bytes);
    }
    let mut parts = Parts::of(sheet);
    let (label, damage) = random.pick(&DAMAGES);
    damage(&mut parts, random);
    if random.once_in(4) {
        random.pick(&DAMAGES).1(&mut parts, random);
    }
    (label, parts.bytes())
}

impl Parts {
    fn of(sheet: &Sheet) -> Parts {
        let one = |record: &Record| {
            let alone = std::slice::from_ref(record);
            sheet::write(sheet.version, alone)[3..].to_vec()
        };
        Parts {
            length: Length::Told,
            version: sheet.version as u8,
            records: sheet.records.iter().map(one).collect(),
            after: vec![],
            cut: None,
        }
    }

    fn body(&self) -> Vec<u8> {
        let mut body = vec![self.version];
        body.extend(self.records.concat());
        body.extend(&self.after);
        body
    }

    fn bytes(&self) -> Vec<u8> {
        let body = self.body();
        let length = match self.length {
            Length::Told => body.len() as u16,
            Length::Is(number) => number,
        };
        let mut bytes = length.to_be_bytes().to_vec();
        bytes.extend(body);
        bytes.truncate(self.cut.unwrap_or(bytes.len()));
        bytes
    }

    /// One of the records, if there is one.
    fn record(&mut self, random: &mut Random) -> Option<(usize, &mut Vec<u8>)> {
        let count = self.records.len();
        let number = random.below(count.max(1));
        Some((number, self.records.get_mut(number)?))
    }

    /// Inserts records before the last until there are as many as wanted.
    fn pad(&mut self, random: &mut Random, count: usize) {
        let before_last = self.records.len().saturating_sub(1);
        while self.records.len() < count {
            let some: &[u8] = random.pick(&[&[1, 2], &[1, 3], &[5, 1, 0, 0, 0, 9]]);
            self.records.insert(before_last, some.to_vec());
        }
    }
}

fn length(parts: &mut Parts, random: &mut Random) {
    let right = parts.body().len() as u16;
    let wrong = match random.below(4) {
        0 => right.wrapping_add(1),
        1 => right.wrapping_sub(1),
        2 => right.wrapping_add(256),
        _ => random.word() as u16,
    };
    parts.length = Length::Is(wrong);
}

fn version(parts: &mut Parts, random: &mut Random) {
    let any = random.byte();
    parts.version = random.pick(&[0, 3, 255, any]);
}

/// Version 2 for 1, and 1 for 2: a good sheet, whose faces mean something else.
fn other_version(parts: &mut Parts, _: &mut Random) {
    parts.version ^= 3;
}

fn kind(parts: &mut Parts, random: &mut Random) {
    let some = [0, 1, 2, 4, 5, 7, 8, 9, 15, 16, 17, 18, 19, 20, 255];
    let kind = random.pick(&some);
    if let Some((_, record)) = parts.record(random) {
        record[1] = kind;
    }
}

fn count(parts: &mut Parts, random: &mut Random) {
    let wrong = random.byte();
    let near = random.pick(&[0, 1, 2, 3, 4, 5, 6, wrong]);
    if let Some((_, record)) = parts.record(random) {
        record[0] = near;
    }
}

/// In the first record with operands from a random one on: the record's own number, a later one, or any.
fn operand(parts: &mut Parts, random: &mut Random) {
    let any = random.byte();
    let which = random.below(4);
    let from = random.below(parts.records.len().max(1));
    let mut numbered = parts.records.iter_mut().enumerate().skip(from);
    let with_operands = numbered.find(|(_, record)| (3..=4).contains(&record.len()));
    if let Some((number, record)) = with_operands {
        let at = random.between(2, record.len() as i64 - 1) as usize;
        record[at] = match which {
            0 => number as u8,
            1 => (number as u8).saturating_add(1),
            2 => (number as u8).saturating_sub(1),
            _ => any,
        };
    }
}

fn constant(parts: &mut Parts, random: &mut Random) {
    let any = random.word() as i32;
    let value = random.pick(&[0, 1, -1, i32::MIN, i32::MAX, any]);
    if let Some(record) = parts.records.iter_mut().find(|record| record.len() == 6) {
        record[2..].copy_from_slice(&value.to_be_bytes());
    }
}

fn cut(parts: &mut Parts, random: &mut Random) {
    parts.length = Length::Is(parts.body().len() as u16);
    parts.cut = Some(random.below(parts.body().len() + 2));
}

fn cut_told(parts: &mut Parts, random: &mut Random) {
    let all = parts.records.concat();
    let left = random.below(all.len() + 1);
    parts.records = vec![];
    parts.after = all[..left].to_vec();
}

fn longer(parts: &mut Parts, random: &mut Random) {
    parts.length = Length::Is(parts.body().len() as u16);
    longer_told(parts, random);
}

fn longer_told(parts: &mut Parts, random: &mut Random) {
    for _ in 0..random.between(1, 7) {
        let any = random.byte();
        parts.after.push(random.pick(&[0, 1, 2, 3, any]));
    }
}

fn removed(parts: &mut Parts, random: &mut Random) {
    if let Some((number, _)) = parts.record(random) {
        parts.records.remove(number);
    }
}

fn twice(parts: &mut Parts, random: &mut Random) {
    if let Some((number, record)) = parts.record(random) {
        let same = record.clone();
        parts.records.insert(number, same);
    }
}

fn swapped(parts: &mut Parts, random: &mut Random) {
    let count = parts.records.len().max(1);
    let (a, b) = (random.below(count), random.below(count));
    if !parts.records.is_empty() {
        parts.records.swap(a, b);
    }
}

fn records_256(parts: &mut Parts, random: &mut Random) {
    parts.pad(random, MOST_RECORDS);
}

fn records_257(parts: &mut Parts, random: &mut Random) {
    parts.pad(random, MOST_RECORDS + 1);
}

fn byte_after_256(parts: &mut Parts, random: &mut Random) {
    parts.pad(random, MOST_RECORDS);
    parts.after.push(random.byte());
}

fn solid_arithmetic(parts: &mut Parts, _: &mut Random) {
    parts.records.push(vec![1, 2]);
}

fn no_records(parts: &mut Parts, _: &mut Random) {
    parts.records = vec![];
}

fn under_3(parts: &mut Parts, random: &mut Random) {
    let any = random.word() as u16;
    parts.length = Length::Is(random.pick(&[0, 1, any]));
    parts.cut = Some(random.below(3));
}

/// Records with the right count for their kind, of random kinds and operands.
fn random_records(parts: &mut Parts, random: &mut Random) {
    let forms: [(u8, &[u8]); 4] = [
        (1, &[2, 3, 4]),
        (2, &[8, 16, 19]),
        (3, &[5, 6, 7, 17, 18]),
        (5, &[1]),
    ];
    parts.records.clear();
    for number in 0..random.between(1, 12) {
        let (count, kinds) = random.pick(&forms);
        let mut record = vec![count, random.pick(kinds)];
        for _ in 1..count {
            record.push(random.between(0, number) as u8);
        }
        parts.records.push(record);
    }
}

/// The longest length that the first two bytes can hold, or one byte more, so that the length wraps to 0.
fn longest(parts: &mut Parts, random: &mut Random) {
    let longest = usize::from(u16::MAX) + random.below(2);
    let missing = longest.saturating_sub(parts.body().len());
    parts.after.extend([1, 2].into_iter().cycle().take(missing));
}
