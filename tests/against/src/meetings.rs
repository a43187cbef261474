//! How states of one face each meet in both and either, which request 2026-03 decides.

use crate::first_cubes::{names, show};
use paper::colour::{State, State::*};
use paper::root::Root;
use paper::sheet::{Record, Sheet};

/// First those of both, then those of either, in the same order.
pub const MEETINGS: [&str; 12] = [
    "states: both of Single(f) with Single(f)",
    "states: both of Comp(f) with Comp(f)",
    "states: both of Single(f) with Comp(f)",
    "states: both of Comp(f) with Single(f)",
    "states: both of two faces over one operand",
    "states: both of other different faces",
    "states: either of Single(f) with Single(f)",
    "states: either of Comp(f) with Comp(f)",
    "states: either of Single(f) with Comp(f)",
    "states: either of Comp(f) with Single(f)",
    "states: either of two faces over one operand",
    "states: either of other different faces",
];

type Met = [bool; MEETINGS.len()];

/// The meetings in a build within the limit, in the cubes of its first levels.
pub fn of_build(sheet: &Sheet, root: &Root) -> Vec<&'static str> {
    let mut met = Met::default();
    show(sheet, root, &mut |_, states| {
        add_met(sheet, states, &mut met)
    });
    names(MEETINGS, met)
}

fn add_met(sheet: &Sheet, states: &[Option<State>], met: &mut Met) {
    for record in &sheet.records {
        let (first, p, q) = match *record {
            Record::Both(p, q) => (0, p, q),
            Record::Either(p, q) => (MEETINGS.len() / 2, p, q),
            _ => continue,
        };
        if let Some(how) = meeting(sheet, states[p], states[q]) {
            met[first + how] = true;
        }
    }
}

/// Which of the six meetings of a kind two states are, if each is of one face.
fn meeting(sheet: &Sheet, p: Option<State>, q: Option<State>) -> Option<usize> {
    match (p?, q?) {
        (Single(f), Single(g)) if f == g => Some(0),
        (Comp(f), Comp(g)) if f == g => Some(1),
        (Single(f), Comp(g)) if f == g => Some(2),
        (Comp(f), Single(g)) if f == g => Some(3),
        (Single(f) | Comp(f), Single(g) | Comp(g)) => {
            let one_operand = sheet.records[f] == sheet.records[g];
            Some(if one_operand { 4 } else { 5 })
        }
        _ => None,
    }
}

#[cfg(test)]
mod tests {
    use super::*;
    use paper::sheet::{Record::*, Version::One};

    /// Faces 3 and 4 have one operand; 7 crosses the root too, and is In in child 0.
    #[test]
    fn each_meeting_is_named() {
        let faces = [X, Constant(1), Difference(0, 1), Face(2), Face(2)];
        let across = [Y, Difference(5, 1), Face(6), Complement(3), Complement(3)];
        let root = |d| Root {
            low: [0, 0, 0],
            k: 1,
            d,
        };
        let met = |joined: Record, d| {
            let sheet = Sheet {
                version: One,
                records: [&faces[..], &across, &[joined]].concat(),
            };
            of_build(&sheet, &root(d))
        };
        assert_eq!(met(Both(3, 3), 0), [MEETINGS[0]]);
        assert_eq!(met(Both(8, 9), 0), [MEETINGS[1]]);
        assert_eq!(met(Both(3, 9), 0), [MEETINGS[2]]);
        assert_eq!(met(Both(8, 3), 0), [MEETINGS[3]]);
        assert_eq!(met(Both(4, 8), 0), [MEETINGS[4]]);
        assert_eq!(met(Both(7, 8), 0), [MEETINGS[5]]);
        assert_eq!(met(Either(3, 3), 0), [MEETINGS[6]]);
        assert_eq!(met(Either(9, 8), 0), [MEETINGS[7]]);
        assert_eq!(met(Either(3, 8), 0), [MEETINGS[8]]);
        assert_eq!(met(Either(9, 3), 0), [MEETINGS[9]]);
        assert_eq!(met(Either(3, 4), 0), [MEETINGS[10]]);
        assert_eq!(met(Either(3, 7), 0), [MEETINGS[11]]);
    }

    /// Both of face 3 with the other: their root is Mixed, and in a smaller cube one leaves it to the face.
    #[test]
    fn meetings_in_smaller_cubes_count() {
        let faces = [X, Constant(1), Difference(0, 1), Face(2)];
        let across = [Y, Difference(4, 1), Face(5), Both(3, 6), Both(7, 3)];
        let records = [&faces[..], &across].concat();
        let met = |d| {
            let sheet = Sheet {
                version: One,
                records: records.clone(),
            };
            let low = [0, 0, 0];
            of_build(&sheet, &Root { low, k: 1, d })
        };
        assert_eq!(met(0), [MEETINGS[5]]);
        assert_eq!(met(1), [MEETINGS[0], MEETINGS[5]]);
    }
}
