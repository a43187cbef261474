//! "Both" and "either" as document 01 has them, before request 2026-03: where neither state decides or is passed on, the
//! result is Mixed, even if both are of one face. No call builds by this rule any more, but maps that were built by it
//! are in use, and demand 3 holds of them.

use crate::build::map_by;
use crate::colour::{self, Colour, Rules, State, State::*};
use crate::root::{Cube, Root};
use crate::sheet::{self, Sheet};
use crate::Refusal;

pub fn both(p: State, q: State) -> State {
    match (p, q) {
        (Out, _) | (_, Out) => Out,
        (In, other) | (other, In) => other,
        _ => Mixed,
    }
}

pub fn either(p: State, q: State) -> State {
    match (p, q) {
        (In, _) | (_, In) => In,
        (Out, other) | (other, Out) => other,
        _ => Mixed,
    }
}

pub const RULES: Rules = Rules {
    both: &both,
    either: &either,
    ..colour::RULES
};

/// The colour of a cube by this rule.
pub fn colour(sheet: &Sheet, cube: &Cube) -> Colour {
    colour::colour_by(&RULES, sheet, cube)
}

/// The map of a sheet by this rule.
pub fn map_of(sheet: &[u8], root: &Root) -> Result<Vec<u8>, Refusal> {
    map_by(&colour, &sheet::read(sheet)?, root)
}

#[cfg(test)]
mod tests {
    use super::*;
    use crate::build;
    use crate::map::{HEADER, LEAF};
    use crate::sheet::{
        Record::{self, *},
        Version::{self, *},
        VERSIONS,
    };

    /// The states of two faces and the others, by a letter each; f and g are Single, F and G Comp.
    const STATES: [(char, State); 7] = [
        ('I', In),
        ('O', Out),
        ('f', Single(5)),
        ('F', Comp(5)),
        ('g', Single(6)),
        ('G', Comp(6)),
        ('M', Mixed),
    ];

    /// A rule gives these states: a row for each first state, with a letter for each second one, in the order above.
    fn gives(rule: &dyn Fn(State, State) -> State, table: [&str; 7]) {
        for ((p, first), row) in STATES.into_iter().zip(table) {
            assert_eq!(row.len(), STATES.len());
            for ((q, second), letter) in STATES.into_iter().zip(row.chars()) {
                let (_, wanted) = STATES.into_iter().find(|(one, _)| *one == letter).unwrap();
                assert_eq!(rule(first, second), wanted, "of {p} with {q}");
            }
        }
    }

    #[test]
    fn both_of_all_states() {
        let [i, o, m] = ["IOfFgGM", "OOOOOOO", "MOMMMMM"];
        let [f, f_comp] = ["fOfOMMM", "FOOFMMM"];
        let [g, g_comp] = ["gOMMgOM", "GOMMOGM"];
        gives(&colour::both, [i, o, f, f_comp, g, g_comp, m]);
        let [f, f_comp, g, g_comp] = ["fOMMMMM", "FOMMMMM", "gOMMMMM", "GOMMMMM"];
        gives(&both, [i, o, f, f_comp, g, g_comp, m]);
    }

    #[test]
    fn either_of_all_states() {
        let [i, o, m] = ["IIIIIII", "IOfFgGM", "IMMMMMM"];
        let [f, f_comp] = ["IffIMMM", "IFIFMMM"];
        let [g, g_comp] = ["IgMMgIM", "IGMMIGM"];
        gives(&colour::either, [i, o, f, f_comp, g, g_comp, m]);
        let [f, f_comp, g, g_comp] = ["IfMMMMM", "IFMMMMM", "IgMMMMM", "IGMMMMM"];
        gives(&either, [i, o, f, f_comp, g, g_comp, m]);
    }

    /// The leaves of the maps over 0 to 4, at depth d, by the new rule and by this one. Record 3 is x at most 2, or less
    /// than 2 in version 2.
    fn leaves(version: Version, joined: &[Record], d: u8) -> [Vec<[u8; LEAF]>; 2] {
        let face = [X, Constant(2), Difference(0, 1), Face(2)];
        let sheet = sheet::write(version, &[&face[..], joined].concat());
        let (low, k) = ([0, 0, 0], 2);
        [build::map_of, map_of].map(|map_of| {
            let map = map_of(&sheet, &Root { low, k, d }).unwrap();
            map[HEADER..].as_chunks().0.to_vec()
        })
    }

    /// The leaves of a root that is split. In version 1 the face is In in the low half of x, and Single in the high half;
    /// in version 2 it is Single in the low half, and Out in the high half. In gives the first class, Out the second, and
    /// where it is Single the leaf is gray.
    fn halves(version: Version, [if_in, if_out]: [u8; 2]) -> Vec<[u8; LEAF]> {
        let half = |class| [1, class, 0];
        match version {
            One => [half(if_in), half(4)].repeat(4),
            Two => [half(4), half(if_out)].repeat(4),
        }
    }

    /// The maps in each version: by the new rule at depths 1 and 0, one leaf; by this one, the halves and one gray leaf.
    fn are_one_leaf(joined: &[Record], leaf: [u8; LEAF], decided: [u8; 2]) {
        for version in VERSIONS {
            let split = halves(version, decided);
            assert_eq!(leaves(version, joined, 1), [vec![leaf], split]);
            assert_eq!(leaves(version, joined, 0), [vec![leaf], vec![GRAY]]);
        }
    }

    /// The maps in each version, which are the same by both rules.
    fn are_halves(joined: &[Record], decided: [u8; 2]) {
        for version in VERSIONS {
            let split = halves(version, decided);
            assert_eq!(leaves(version, joined, 1), [split.clone(), split]);
            assert_eq!(leaves(version, joined, 0), [[GRAY], [GRAY]]);
        }
    }

    const GRAY: [u8; LEAF] = [0, 4, 0];

    #[test]
    fn a_face_with_itself_is_one_leaf() {
        for joined in [Both(3, 3), Either(3, 3)] {
            are_one_leaf(&[joined], [0, 2, 3], [1, 0]);
        }
    }

    #[test]
    fn a_complement_with_itself_is_one_leaf() {
        for joined in [Both(4, 4), Either(4, 4)] {
            are_one_leaf(&[Complement(3), joined], [0, 3, 3], [0, 1]);
        }
    }

    #[test]
    fn a_face_with_its_complement_is_decided() {
        let all = [
            (Both(3, 4), 0),
            (Both(4, 3), 0),
            (Either(3, 4), 1),
            (Either(4, 3), 1),
        ];
        for (joined, class) in all {
            are_one_leaf(&[Complement(3), joined], [0, class, 0], [class, class]);
        }
    }

    #[test]
    fn two_faces_over_one_operand_are_two() {
        for joined in [Both(3, 4), Either(3, 4)] {
            are_halves(&[Face(2), joined], [1, 0]);
        }
        // Neither is decided with the other's complement.
        for (joined, class) in [(Both(3, 5), 0), (Either(5, 3), 1)] {
            are_halves(&[Face(2), Complement(4), joined], [class, class]);
        }
    }

    /// A face is known by its record number, whichever records pass it on: here the complement of its complement, and
    /// both with a record that holds everywhere.
    #[test]
    fn a_face_is_followed_through_other_records() {
        let passed_on = [Complement(3), Complement(4), Constant(-1), Face(6)];
        let joined = [Both(3, 7), Either(5, 8)];
        are_one_leaf(&[&passed_on[..], &joined].concat(), [0, 2, 3], [1, 0]);
    }
}
