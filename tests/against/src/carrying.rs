//! A plain program that builds and refines by carrying down (request 2026-13), by given steps: below the root, a cube is coloured by a tape
//! of those records that can still matter. To refine, it goes down the tree of the map, so that a gray leaf has the tape of its cube.

use crate::case::{Case, Outcome};
use crate::expect::{by_paper, of_map, of_refined};
use crate::handed::{Handed, Met, NONE};
use crate::steps::{renamed, Entries, Steps, Tape, Tapes};
use paper::bounds::{self, Interval};
use paper::colour::{self, GRAY, RULES};
use paper::map::{self, Leaf, Map};
use paper::refine::deepened;
use paper::root::{Cube, Root};
use paper::sheet::{self, Sheet};
use paper::{reply, Refusal};
use std::slice::Iter;

/// A build by wrong steps stops splitting at this many leaves. No case has as many.
const MOST_LEAVES: usize = 30_000;

struct Builder<'a> {
    steps: &'a Steps<'a>,
    d: u8,
    entries: Entries,
    together: usize,
    leaves: Vec<Leaf>,
    handed: Handed,
}

impl<'a> Builder<'a> {
    /// A build, and the tape of the whole sheet.
    fn of(steps: &'a Steps<'a>, sheet: &Sheet, root: &Root) -> (Builder<'a>, Tape) {
        let count = sheet.records.len();
        let whole = Tape {
            sheet: sheet.clone(),
            words: (0..count).collect(),
            solid: count - 1,
        };
        let entries = Entries {
            bounds: vec![None; count],
            states: vec![None; count],
        };
        let builder = Builder {
            steps,
            d: root.d,
            entries,
            together: count,
            leaves: Vec::new(),
            handed: Handed::of(sheet),
        };
        (builder, whole)
    }

    fn work_out(&mut self, tape: &Tape, cube: &Cube) {
        let Tape { sheet, words, .. } = tape;
        let product = match cube.level {
            0 => Interval::product,
            _ => self.steps.product,
        };
        for &number in words {
            if (self.steps.worked_out)(tape, number, &self.entries, cube.level) {
                let Entries { bounds, states } = &mut self.entries;
                bounds[number] = bounds::of_record(&sheet.records[number], bounds, cube, product);
                states[number] = colour::state(&RULES, sheet, number, bounds, states);
            }
        }
    }

    /// The tape for the children of the cube that was worked out last.
    fn shorten(&mut self, own: &Tape, cube: &Cube) -> Tape {
        let (steps, states) = (self.steps, &self.entries.states);
        let mut twins: Vec<usize> = (0..own.sheet.records.len()).collect();
        let (mut shorter, mut marked) = (own.clone(), own.clone());
        for &number in &own.words {
            let record = &own.sheet.records[number];
            shorter.sheet.records[number] = (steps.renamed)(record, &twins);
            marked.sheet.records[number] = renamed(record, &twins);
            twins[number] = (steps.twin)(record, number, states, &twins);
        }
        shorter.sheet.version = (steps.version)(own.sheet.version);
        marked.solid = twins[own.solid];
        shorter.words = (steps.kept)(&marked, &twins);
        shorter.solid = (steps.solid)(own.solid, &twins);
        self.handed.count(cube.level, own, &shorter, states);
        shorter
    }

    /// Adds the leaves of a cube, and returns the tape of its next sibling.
    fn add(&mut self, cube: &Cube, own: Tape) -> Tape {
        self.work_out(&own, cube);
        let state = self.entries.states[own.solid].expect("the solid is logical");
        let (level, colour) = (cube.level, colour::class(state));
        if colour.class != GRAY || level >= self.d || self.leaves.len() > MOST_LEAVES {
            self.leaves.push(Leaf { level, colour });
            return own;
        }
        self.below(cube, own, Builder::add)
    }

    /// Adds what the leaves of a map are replaced by, from the next one on, as far as they lie in a cube of its tree. Returns the tape of the
    /// cube's next sibling.
    fn replace(&mut self, cube: &Cube, own: Tape, next: &mut Iter<Leaf>) -> Tape {
        let leaf = next.as_slice()[0];
        if leaf.level > cube.level {
            self.work_out(&own, cube);
            return self.below(cube, own, |builder, child, tape| {
                builder.replace(child, tape, next)
            });
        }
        next.next();
        if leaf.colour.class == GRAY {
            return self.add(cube, own);
        }
        self.leaves.push(leaf);
        own
    }

    /// Adds what there is in each child of the cube that was worked out last, and returns the tape of the cube's next sibling.
    fn below(
        &mut self,
        cube: &Cube,
        own: Tape,
        mut add: impl FnMut(&mut Self, &Cube, Tape) -> Tape,
    ) -> Tape {
        let for_children = self.shorten(&own, cube);
        let more = for_children.words.len();
        self.together += more;
        self.handed.count_together(self.together);
        let mut last = for_children.clone();
        for child in cube.children() {
            last = add(self, &child, last);
        }
        let together = self.together;
        self.together -= more;
        (self.steps.restored)(Tapes {
            own,
            for_children,
            last,
            together,
        })
    }
}

/// The map of a good sheet by these steps, and which ways it met. The root is judged by all records.
fn map_by(steps: &Steps, sheet: &Sheet, root: &Root) -> Result<(Vec<u8>, Met), Refusal> {
    if !root.in_limits() {
        return Err(reply(6, 0));
    }
    bounds::within_limit(sheet, root)?;
    let (mut builder, whole) = Builder::of(steps, sheet, root);
    builder.add(&root.cube(), whole);
    builder.handed.count_leaves(&builder.leaves);
    Ok((map::write(root, &builder.leaves), builder.handed.met))
}

/// The map that a good one of a good sheet is refined to, likewise.
fn refined_by(steps: &Steps, sheet: &Sheet, map: &Map, d: u8) -> Result<(Vec<u8>, Met), Refusal> {
    let root = deepened(&map.root, d)?;
    bounds::within_limit(sheet, &root)?;
    let (mut builder, whole) = Builder::of(steps, sheet, &root);
    builder.replace(&root.cube(), whole, &mut map.leaves.iter());
    builder.handed.count_leaves(&builder.leaves);
    Ok((map::write(&root, &builder.leaves), builder.handed.met))
}

/// The outcome of a build or a refine by these steps, and which ways it met; of any other case, the paper's.
pub fn outcome(case: &Case, steps: &Steps) -> (Outcome, Met) {
    let sheet = sheet::read(case.sheet().unwrap_or_default());
    match case {
        Case::Build(asked) => {
            let map = sheet.and_then(|sheet| map_by(steps, &sheet, &asked.root));
            let (map, met) = parted(map);
            (of_map(asked, map), met)
        }
        Case::Refine(asked) => {
            let map = sheet.and_then(|sheet| {
                let map = map::read_for(&asked.map, &sheet)?;
                refined_by(steps, &sheet, &map, asked.d)
            });
            let (map, met) = parted(map);
            (of_refined(asked, map), met)
        }
        _ => (by_paper(case), NONE),
    }
}

/// A map or a refusal, and which ways it met.
fn parted(map: Result<(Vec<u8>, Met), Refusal>) -> (Result<Vec<u8>, Refusal>, Met) {
    match map {
        Ok((map, met)) => (Ok(map), met),
        Err(refusal) => (Err(refusal), NONE),
    }
}

/// The outcome alone.
pub fn built(case: &Case, steps: &Steps) -> Outcome {
    outcome(case, steps).0
}

#[cfg(test)]
mod tests {
    use super::*;
    use crate::steps::STEPS;
    use paper::sheet::{Record::*, Version::One};

    /// x at most 1, y at most 1, x at most 6, and either both of the first two or the complement of the third.
    fn sheet() -> Sheet {
        let planes = [X, Y, Constant(1), Constant(6)];
        let faces = [Difference(0, 2), Face(4), Difference(1, 2), Face(6)];
        let far = [Difference(0, 3), Face(8), Complement(9)];
        let solid = [Both(5, 7), Either(10, 11)];
        Sheet {
            version: One,
            records: [&planes[..], &faces, &far, &solid].concat(),
        }
    }

    fn root(d: u8) -> Root {
        Root {
            low: [0, 0, 0],
            k: 3,
            d,
        }
    }

    #[test]
    fn the_map_is_the_papers() {
        for d in 0..=3 {
            let map = map_by(&STEPS, &sheet(), &root(d)).map(|(map, _)| map);
            assert_eq!(
                map,
                paper::build::map_by(&colour::colour, &sheet(), &root(d))
            );
        }
        assert_eq!(map_by(&STEPS, &sheet(), &root(4)), Err(reply(6, 0)));
    }

    /// From each depth to each that is not smaller, and of one with a leaf that stands.
    #[test]
    fn the_refined_map_is_the_papers() {
        let bytes = sheet::write(One, &sheet().records);
        for (from, to) in [(0, 0), (0, 3), (1, 1), (1, 2), (1, 3), (2, 3), (3, 3)] {
            let mut old = paper::build::map_of(&bytes, &root(from)).unwrap();
            for class in [old[20], 0] {
                old[20] = class;
                let map = map::read(&old).unwrap();
                let refined = refined_by(&STEPS, &sheet(), &map, to).map(|(map, _)| map);
                assert_eq!(refined, paper::refine::map_of(&bytes, &old, to));
            }
        }
    }

    /// In child 0 the third face holds, so its complement is Out and leaves the solid to record 11.
    #[test]
    fn a_tape_for_children() {
        let sheet = sheet();
        let (mut builder, whole) = Builder::of(&STEPS, &sheet, &root(3));
        builder.work_out(&whole, &root(3).cube());
        let child = root(3).cube().child(0);
        builder.work_out(&whole, &child);
        let shorter = builder.shorten(&whole, &child);
        assert_eq!(shorter.words, [0, 1, 2, 4, 5, 6, 7, 11]);
        assert_eq!(shorter.solid, 11);
    }
}
