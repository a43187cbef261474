//! The second program for building: one pass over the cubes, into a vector, as the baseline, but a cube hands down to its children only the
//! records that can still matter there. It refines too, along the tree of the map.
//!
//! The records stand on a tape, as words. At a cube the words are worked out in two loops, the bounds and then the states, into arrays by
//! record number. What is In or Out over a cube stays so over the cubes inside: there, both of In and a state is that state. Such a record and
//! its other operand are twins, and the children's tape reads the twin in its place. A word that no word of that tape reads is left out. So
//! what is decided is left out too, with all that nothing else reads.
use crate::baseline::{limited_over_root, Map, Root};
use crate::colour::{Cube, State};
use crate::records::{parse, Record, Refusal};
use crate::scan;
use crate::tape::{Entries, Word, NUMBERS};
use std::slice::Iter;

/// A stretch of the words: arithmetic ones from `first` to `middle`, logical ones from there to `end`. The solid has the state of record
/// `solid`.
#[derive(Clone, Copy)]
struct Tape {
    first: usize,
    middle: usize,
    end: usize,
    solid: u8,
}

/// A build in progress. The tapes of a cube and of those that it lies in stand one after the other in `words`.
struct Build {
    d: u8,
    entries: Entries,
    words: Vec<Word>,
    map: Vec<u8>,
    cubes: usize,
}

impl Build {
    /// A build of these records over a root, and the tape of all its records.
    fn of(records: &[Record], root: &Root) -> (Build, Tape) {
        let entries = Entries::of(records);
        let numbered = (0..=255).zip(records);
        let words = numbered.filter_map(|(number, &record)| Word::of(record, number));
        let words = words.filter(|word| !entries.has_at_hand(word));
        let (logical, mut words): (Vec<Word>, Vec<Word>) = words.partition(Word::is_logical);
        let middle = words.len();
        words.extend(logical);
        let tape = Tape {
            first: 0,
            middle,
            end: words.len(),
            solid: (records.len() - 1) as u8,
        };
        let build = Build {
            d: root.d,
            entries,
            words,
            map: root.header(),
            cubes: 0,
        };
        (build, tape)
    }

    /// Works a tape out over a cube. Returns whether a record is decided there.
    fn colour(&mut self, cube: &Cube, tape: Tape) -> bool {
        let arithmetic = &self.words[tape.first..tape.middle];
        let logical = &self.words[tape.middle..tape.end];
        self.entries.fill(arithmetic, logical, cube)
    }

    /// The tape for the children of the cube whose tape was worked out last, after that tape. It is filled from its end, since a word comes
    /// after those that it reads.
    fn shorten(&mut self, tape: Tape) -> Tape {
        let twins = self.entries.twins(&self.words[tape.middle..tape.end]);
        let solid = twins[tape.solid as usize];
        let mut kept = [false; NUMBERS];
        kept[solid as usize] = true;
        let end = tape.end + (tape.end - tape.first);
        if self.words.len() < end {
            self.words.resize(end, self.words[tape.first]);
        }
        let (mut first, mut middle) = (end, end);
        for at in (tape.first..tape.end).rev() {
            let mut word = self.words[at];
            if kept[word.number as usize] {
                if word.has_logical_operands() {
                    word.operands = word.operands.map(|p| twins[p as usize]);
                }
                for a in word.operands {
                    kept[a as usize] = true;
                }
                first -= 1;
                self.words[first] = word;
            }
            if at == tape.middle {
                middle = first;
            }
        }
        Tape {
            first,
            middle,
            end,
            solid,
        }
    }

    /// Appends the leaves of a cube.
    fn add(&mut self, cube: Cube, tape: Tape) {
        self.cubes += 1;
        let decided = self.colour(&cube, tape);
        let state = self.entries.state_of(tape.solid);
        if state == State::Mixed && cube.level < self.d {
            let shorter = if decided { self.shorten(tape) } else { tape };
            (0..8).for_each(|number| self.add(cube.child(number), shorter));
        } else {
            let [class, face] = state.class();
            self.map.extend([cube.level, class, face]);
        }
    }

    /// Appends what the next leaves of a map are replaced by, as far as they lie in a cube of its tree.
    fn replace(&mut self, cube: Cube, tape: Tape, next: &mut Iter<[u8; 3]>) {
        let leaf = next.as_slice()[0];
        if leaf[0] > cube.level {
            self.cubes += 1;
            let decided = self.colour(&cube, tape);
            let shorter = if decided { self.shorten(tape) } else { tape };
            (0..8).for_each(|number| self.replace(cube.child(number), shorter, next));
            return;
        }
        next.next();
        match leaf[1] {
            4 => self.add(cube, tape),
            _ => self.map.extend(leaf),
        }
    }
}

/// The map of a sheet, or the refusal. The limit is tested over the root, for all records; a smaller cube's bounds lie inside the root's.
pub fn build(sheet: &[u8], root: &Root) -> Result<Map, Refusal> {
    let records = parse(sheet)?;
    if !root.is_within_limits() {
        return Err((6, 0));
    }
    limited_over_root(&records, root).map_err(|number| (7, number))?;
    let (mut build, tape) = Build::of(&records, root);
    build.add(root.cube(), tape);
    Ok(Map::finished(build.map, build.cubes))
}

/// A map refined to a depth, or the refusal.
pub fn refine(sheet: &[u8], map: &[u8], d: u8) -> Result<Map, Refusal> {
    let records = parse(sheet)?;
    let old = scan::opened(&records, map)?;
    let root = Root { d, ..old };
    if d < old.d || !root.is_within_limits() {
        return Err((6, 0));
    }
    limited_over_root(&records, &root).map_err(|number| (7, number))?;
    let (mut build, tape) = Build::of(&records, &root);
    let (leaves, _) = map[19..].as_chunks();
    build.replace(root.cube(), tape, &mut leaves.iter());
    Ok(Map::finished(build.map, build.cubes))
}

/// The numbers on a tape.
#[cfg(test)]
fn numbers(build: &Build, tape: Tape) -> Vec<u8> {
    let words = &build.words[tape.first..tape.end];
    words.iter().map(|word| word.number).collect()
}

/// A corner of one room, and another room with a column: over a cube at the corner, which the other room lies outside of, the solid is the
/// corner's twin, and all else is left out.
#[test]
fn only_what_can_matter_is_handed_down() {
    let mut s = crate::drawing::Sheet::default();
    let (room, column) = (s.slab(0, 100, 200), s.cylinder(150, 150, 20));
    let clear = s.complement(column);
    let room = s.both(room, clear);
    let [west, south] = [0, 1].map(|axis| {
        let along = s.coordinate(axis);
        s.at_least(along, 800)
    });
    let corner = s.both(west, south);
    s.either(room, corner);
    let records = parse(&s.finish()).expect("the sheet is good");
    let (low, k, d) = ([0, 0, 0], 10, 5);
    let root = Root { corner: low, k, d };
    let (mut build, whole) = Build::of(&records, &root);
    assert!(!build.colour(&root.cube(), whole));
    let cube = root.cube().child(3);
    assert!(build.colour(&cube, whole));
    let shorter = build.shorten(whole);
    assert_eq!(shorter.solid, corner);
    // The difference of a face is the record before it.
    let kept = [west - 1, south - 1, west, south, corner];
    assert_eq!(numbers(&build, shorter), kept);
    assert_eq!(shorter.middle, shorter.first + 2);
    assert!(!build.colour(&cube, shorter));
    assert!(build.colour(&cube.child(0), shorter));
    assert!(build.entries.state_of(corner) == State::Out);
}
