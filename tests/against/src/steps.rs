//! The steps of carrying down (request 2026-13), over the paper's rules. They are parameters, so that a test can take a wrong one.

use paper::bounds::{self, Interval};
use paper::colour::{State, State::*};
use paper::sheet::{Record, Record::*, Sheet, Version};

/// The records that are still worked out, by number and in order, and the one whose state the solid has. In the sheet
/// they have the operands that are read now, which may be twins of their own.
#[derive(Clone)]
pub struct Tape {
    pub sheet: Sheet,
    pub words: Vec<usize>,
    pub solid: usize,
}

/// Bounds and states by number. Those of a record that is left out stay as they were over another cube.
pub struct Entries {
    pub bounds: Vec<Option<Interval>>,
    pub states: Vec<Option<State>>,
}

/// The tapes at hand after a gray cube and all cubes in it: its own, the one for its children, the one at hand after the
/// last of these, and how many words the tapes of the cube and of those that it lies in have together.
pub struct Tapes {
    pub own: Tape,
    pub for_children: Tape,
    pub last: Tape,
    pub together: usize,
}

pub type States<'a> = &'a [Option<State>];

/// Says what to read in place of a record, by its number, the states over the cube, and what is read in place of earlier records.
type Twin<'a> = dyn Fn(&Record, usize, States, &[usize]) -> usize + 'a;

/// The steps of carrying down.
pub struct Steps<'a> {
    /// Whether a word of the tape is worked out over a cube of this level; its entry stays as it is otherwise.
    pub worked_out: &'a dyn Fn(&Tape, usize, &Entries, u8) -> bool,
    /// The record to read in place of one.
    pub twin: &'a Twin<'a>,
    /// A record with its operands replaced, as the children read it.
    pub renamed: &'a dyn Fn(&Record, &[usize]) -> Record,
    /// The words that are kept, of those of a tape whose records have their operands replaced.
    pub kept: &'a dyn Fn(&Tape, &[usize]) -> Vec<usize>,
    /// The record whose state the children take for the solid's.
    pub solid: &'a dyn Fn(usize, &[usize]) -> usize,
    /// The version of the children's faces.
    pub version: &'a dyn Fn(Version) -> Version,
    /// The product of bounds below the root.
    pub product: bounds::Rule,
    /// The tape of a cube's next sibling.
    pub restored: &'a dyn Fn(Tapes) -> Tape,
}

pub const STEPS: Steps = Steps {
    worked_out: &|_, _, _, _| true,
    twin: &twin,
    renamed: &renamed,
    kept: &|tape, _| kept_by(tape, Record::operands),
    solid: &|solid, twins| twins[solid],
    version: &|own| own,
    product: Interval::product,
    restored: &|tapes| tapes.own,
};

/// Both of In with a record has that record's state over all cubes inside, and so does either of Out.
pub fn twin(record: &Record, own: usize, states: States, twins: &[usize]) -> usize {
    let (passing, p, q) = match *record {
        Both(p, q) => (In, p, q),
        Either(p, q) => (Out, p, q),
        _ => return own,
    };
    if states[p] == Some(passing) {
        twins[q]
    } else if states[q] == Some(passing) {
        twins[p]
    } else {
        own
    }
}

pub fn renamed(record: &Record, twins: &[usize]) -> Record {
    match *record {
        Both(p, q) => Both(twins[p], twins[q]),
        Either(p, q) => Either(twins[p], twins[q]),
        Complement(p) => Complement(twins[p]),
        _ => record.clone(),
    }
}

/// The solid of a tape and all that records that are kept read, by these operands.
pub fn kept_by(tape: &Tape, operands: impl Fn(&Record) -> Vec<usize>) -> Vec<usize> {
    let mut read = vec![false; tape.sheet.records.len()];
    read[tape.solid] = true;
    for &number in tape.words.iter().rev() {
        if read[number] {
            for operand in operands(&tape.sheet.records[number]) {
                read[operand] = true;
            }
        }
    }
    let words = tape.words.iter().copied();
    words.filter(|&number| read[number]).collect()
}

#[cfg(test)]
mod tests {
    use super::*;

    /// Record 1 is read by record 2 alone, and that by none.
    #[test]
    fn what_is_read_is_kept() {
        let tape = Tape {
            sheet: Sheet {
                version: Version::One,
                records: vec![X, Y, Sum(0, 1), Face(0), Complement(3)],
            },
            words: (0..5).collect(),
            solid: 3,
        };
        assert_eq!(kept_by(&tape, Record::operands), [0, 3]);
    }
}
