//! What a build that carries down hands down, and what its sheet has that carrying down can go wrong over.

use crate::steps::{twin, Tape};
use paper::colour::{State, BLACK, GRAY, TERMINAL, TERMINAL_COMPLEMENT, WHITE};
use paper::map::Leaf;
use paper::sheet::{Record, Record::*, Sheet, Sort, MOST_RECORDS};

/// First what is handed down, then what a sheet has, then what the map is. A twin is the operand that both of In or either of Out leaves.
pub const WAYS: [&str; 30] = [
    "handed down: a twin for both of In, at level 0",
    "handed down: a twin for both of In, at level 1",
    "handed down: a twin for both of In, at level 2 and deeper",
    "handed down: a twin for either of Out, at level 0",
    "handed down: a twin for either of Out, at level 1",
    "handed down: a twin for either of Out, at level 2 and deeper",
    "handed down: a twin of a twin",
    "handed down: a twin of the solid",
    "handed down: a record that lost a reader and has another",
    "handed down: other records than to the sibling before",
    "handed down: fewer records, at level 5 and deeper",
    "handed down: tapes of over 640 words together",
    "handed down: tapes of over 1,024 words together",
    "never read: an arithmetic record",
    "never read: a logical record",
    "never read: the record before the solid",
    "read: an arithmetic record, by several",
    "read: a face, by several",
    "read: a both, an either or a complement, by several",
    "read: twice by one logical record",
    "read: twice by one arithmetic record",
    "sheet: several x, y or z",
    "sheet: without x, y or z",
    "sheet: without all three",
    "solid: reads record 0, of 256",
    "solid: reads record 254, of 256",
    "solid: a complement of a complement",
    "map: white or black all over",
    "map: one face all over",
    "map: gray at level 7 or deeper",
];

// Where some of them stand.
const OF_TWIN: usize = 6;
const OF_SOLID: usize = 7;
const LOST_READER: usize = 8;
const NOT_AS_SIBLING: usize = 9;
const DEEP_DOWN: usize = 10;
const OF_TAPES: usize = 11;
const OF_SHEETS: usize = 13;
const OF_MAPS: usize = 27;

/// Which of them a build met.
pub type Met = [bool; WAYS.len()];

pub const NONE: Met = [false; WAYS.len()];

pub struct Handed {
    pub met: Met,
    /// By level, the words for the children of the cube that was split last, if it has the parent that the next one has.
    before: Vec<Option<Vec<usize>>>,
}

impl Handed {
    /// What a sheet has.
    pub fn of(sheet: &Sheet) -> Handed {
        let mut met = NONE;
        for (way, is_met) in of_sheet(sheet).into_iter().enumerate() {
            met[OF_SHEETS + way] = is_met;
        }
        let before = vec![None; 12];
        Handed { met, before }
    }

    fn meet(&mut self, way: usize, is_met: bool) {
        self.met[way] |= is_met;
    }

    /// Counts a cube of this level that hands down a tape to its children.
    pub fn count(&mut self, level: u8, own: &Tape, shorter: &Tape, states: &[Option<State>]) {
        let selves: Vec<usize> = (0..own.sheet.records.len()).collect();
        let mut has_twin = vec![false; selves.len()];
        for &number in &own.words {
            let record = &own.sheet.records[number];
            let other = twin(record, number, states, &selves);
            has_twin[number] = other != number;
            let first = if matches!(record, Both(..)) { 0 } else { 3 };
            self.meet(first + usize::from(level.min(2)), has_twin[number]);
            self.meet(OF_TWIN, has_twin[number] && has_twin[other]);
        }
        self.meet(OF_SOLID, shorter.solid != own.solid);
        let is_kept = |number: &usize| shorter.words.binary_search(number).is_ok();
        let left_out = own.words.iter().filter(|number| !is_kept(number));
        let mut left_out = left_out.filter(|&&number| !has_twin[number]);
        let reads_kept = |number: &usize| own.sheet.records[*number].operands().iter().any(is_kept);
        self.meet(LOST_READER, left_out.any(reads_kept));
        let fewer = shorter.words.len() < own.words.len();
        self.meet(DEEP_DOWN, level > 4 && fewer);
        let level = usize::from(level);
        let before = self.before[level].replace(shorter.words.clone());
        let other = before.is_some_and(|words| words != shorter.words);
        self.meet(NOT_AS_SIBLING, other);
        self.before[level + 1] = None;
    }

    /// Counts the words of a cube's tape and of those that it lies in.
    pub fn count_together(&mut self, words: usize) {
        self.meet(OF_TAPES, words > 640);
        self.meet(OF_TAPES + 1, words > 1024);
    }

    pub fn count_leaves(&mut self, leaves: &[Leaf]) {
        let class = leaves[0].colour.class;
        let one = leaves.len() == 1;
        self.meet(OF_MAPS, one && [WHITE, BLACK].contains(&class));
        let terminal = [TERMINAL, TERMINAL_COMPLEMENT].contains(&class);
        self.meet(OF_MAPS + 1, one && terminal);
        self.meet(OF_MAPS + 2, leaves.iter().any(is_gray_deep_down));
    }
}

fn is_gray_deep_down(leaf: &Leaf) -> bool {
    leaf.level >= 7 && leaf.colour.class == GRAY
}

fn of_sheet(sheet: &Sheet) -> [bool; OF_MAPS - OF_SHEETS] {
    let records = &sheet.records;
    let solid = records.len() - 1;
    let mut readers = vec![0; records.len()];
    for record in records {
        let mut operands = record.operands();
        operands.dedup();
        operands.iter().for_each(|&operand| readers[operand] += 1);
    }
    let unread = |sort| (0..solid).any(|n| readers[n] == 0 && records[n].sort() == sort);
    let by_several =
        |is: fn(&Record) -> bool| (0..solid).any(|n| readers[n] > 1 && is(&records[n]));
    let twice = |sort| {
        let of_sort = records.iter().filter(|record| record.sort() == sort);
        of_sort
            .map(Record::operands)
            .any(|all| all.len() == 2 && all[0] == all[1])
    };
    let axes = [X, Y, Z].map(|axis| records.iter().filter(|&record| *record == axis).count());
    let reads =
        |number| records.len() == MOST_RECORDS && records[solid].operands().contains(&number);
    let is_complement = |record: &Record| matches!(record, Complement(_));
    let turned = |record: &Record| matches!(*record, Complement(p) if is_complement(&records[p]));
    [
        unread(Sort::Arithmetic),
        unread(Sort::Logical),
        solid > 0 && readers[solid - 1] == 0,
        by_several(|record| record.sort() == Sort::Arithmetic),
        by_several(|record| matches!(record, Face(_))),
        by_several(|record| matches!(record, Both(..) | Either(..) | Complement(_))),
        twice(Sort::Logical),
        twice(Sort::Arithmetic),
        axes.iter().any(|&count| count > 1),
        axes.contains(&0),
        axes == [0, 0, 0],
        reads(0),
        reads(MOST_RECORDS - 2),
        turned(&records[solid]),
    ]
}

#[cfg(test)]
mod tests {
    use super::*;
    use paper::colour::State::*;
    use paper::sheet::Version::One;

    fn tape(records: &[Record]) -> Tape {
        Tape {
            sheet: Sheet {
                version: One,
                records: records.to_vec(),
            },
            words: (0..records.len()).collect(),
            solid: records.len() - 1,
        }
    }

    fn named(met: &Met) -> Vec<usize> {
        (0..WAYS.len()).filter(|&way| met[way]).collect()
    }

    /// Record 4 is both of In, its twin record 2; and record 5 is either of Out, its twin record 4.
    #[test]
    fn twins_are_named() {
        let faces = [X, Face(0), Face(0), Face(0)];
        let own = tape(&[&faces[..], &[Both(1, 2), Either(4, 3)]].concat());
        let shorter = Tape {
            words: vec![0, 2],
            solid: 2,
            ..own.clone()
        };
        let states = [In, Mixed, Out, Mixed, Mixed].map(Some);
        let states = [&[None], states.as_slice()].concat();
        let mut handed = Handed {
            met: NONE,
            before: vec![None; 12],
        };
        handed.count(0, &own, &shorter, &states);
        // Records 1 and 3 are left out, which read record 0; record 2 has it too.
        assert_eq!(named(&handed.met), [0, 3, 6, 7, 8]);
        handed.count(1, &own, &shorter, &states);
        handed.count(1, &own, &own, &states);
        assert_eq!(named(&handed.met), [0, 1, 3, 4, 6, 7, 8, 9]);
        handed.count_together(641);
        assert!(handed.met[OF_TAPES] && !handed.met[OF_TAPES + 1]);
    }

    /// Of a new parent the first child that is split has no sibling before it.
    #[test]
    fn siblings_have_one_parent() {
        let own = tape(&[X, Face(0)]);
        let shorter = Tape {
            words: vec![1],
            ..own.clone()
        };
        let mut handed = Handed::of(&own.sheet);
        let states = [None, Some(Mixed)];
        handed.count(1, &own, &own, &states);
        handed.count(0, &own, &own, &states);
        handed.count(1, &own, &shorter, &states);
        assert!(!handed.met[NOT_AS_SIBLING]);
    }

    #[test]
    fn sheets_are_named() {
        let met = |records: &[Record]| named(&Handed::of(&tape(records).sheet).met);
        assert_eq!(met(&[X, Face(0)]), [22]);
        assert_eq!(met(&[X, Y, Z, Face(0)]), [13, 15]);
        assert_eq!(
            met(&[X, X, Sum(0, 0), Face(1), Face(2)]),
            [14, 15, 20, 21, 22]
        );
        assert_eq!(met(&[Constant(0), Face(0), Both(1, 1)]), [19, 22, 23]);
        let turned = [X, Face(0), Complement(1), Complement(2)];
        assert_eq!(met(&turned), [22, 26]);
    }
}
