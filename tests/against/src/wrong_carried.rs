//! Wrong programs of carrying down, each of which takes one wrong step.

use crate::carrying::built;
use crate::case::{Case, Outcome};
use crate::slips::Wrong;
use crate::steps::{kept_by, twin, Entries, States, Steps, Tape, Tapes, STEPS};
use paper::bounds::{interval, Interval};
use paper::colour::{State, State::*};
use paper::sheet::{Record, Record::*, Version};

pub const ALL: [(&str, Wrong); 22] = [
    ("second operands not kept", second_operands),
    ("operands of faces not kept", operands_of_faces),
    ("only what the solid reads itself kept", of_solid_alone),
    ("a twin's twin not followed", nearest_twin),
    ("left-out records read, not their twins", twins_not_read),
    ("the solid's twin not followed", solid_not_followed),
    ("the solid sought from the last record", solid_from_last),
    ("both of Out left to its other operand", both_of_out),
    ("either of In left to its other operand", either_of_in),
    ("both of In left to In", both_left_to_in),
    ("either of a face left to its other operand", either_of_face),
    ("both of equal states left to one, Mixed too", equal_states),
    ("a complement taken for its operand", complement_as_operand),
    ("all faces of version 1 below the root", all_version_1),
    ("all faces of version 2 below the root", all_version_2),
    ("products without signs below the root", signs_ignored),
    ("what is decided stays for siblings", decided_stays),
    ("what is one face stays for siblings", one_face_stays),
    ("only the first x, y and z below the root", first_axes),
    ("the children's tape stays for the sibling", childrens_stays),
    ("the last tape stays for the next cube", last_stays),
    ("over 640 words a tape is overwritten", over_640),
];

/// Keeps what is read by these operands.
fn by_operands(case: &Case, operands: fn(&Record) -> Vec<usize>) -> Outcome {
    let kept = &|tape: &Tape, _: &[usize]| kept_by(tape, operands);
    built(case, &Steps { kept, ..STEPS })
}

fn second_operands(case: &Case) -> Outcome {
    by_operands(case, |record| {
        record.operands().into_iter().take(1).collect()
    })
}

fn operands_of_faces(case: &Case) -> Outcome {
    by_operands(case, |record| match record {
        Face(_) => vec![],
        _ => record.operands(),
    })
}

fn of_solid_alone(case: &Case) -> Outcome {
    let kept = &|tape: &Tape, _: &[usize]| {
        let read = tape.sheet.records[tape.solid].operands();
        let is_read = |number: &usize| *number == tape.solid || read.contains(number);
        tape.words.iter().copied().filter(is_read).collect()
    };
    built(case, &Steps { kept, ..STEPS })
}

/// The other operand itself is read, although it is left out, as all that have a twin.
fn nearest_twin(case: &Case) -> Outcome {
    let nearest = &|record: &Record, own, states: States, twins: &[usize]| {
        let selves: Vec<usize> = (0..twins.len()).collect();
        twin(record, own, states, &selves)
    };
    let kept = &|tape: &Tape, twins: &[usize]| {
        let mut kept = kept_by(tape, Record::operands);
        kept.retain(|&number| twins[number] == number);
        kept
    };
    let steps = Steps {
        twin: nearest,
        kept,
        ..STEPS
    };
    built(case, &steps)
}

fn twins_not_read(case: &Case) -> Outcome {
    let renamed = &|record: &Record, _: &[usize]| record.clone();
    built(case, &Steps { renamed, ..STEPS })
}

fn solid_not_followed(case: &Case) -> Outcome {
    let solid = &|solid, _: &[usize]| solid;
    built(case, &Steps { solid, ..STEPS })
}

/// It is found only at the first cube, from where on the last record is left out.
fn solid_from_last(case: &Case) -> Outcome {
    let solid = &|_, twins: &[usize]| twins[twins.len() - 1];
    built(case, &Steps { solid, ..STEPS })
}

/// The right twins, but for those that are given.
fn by_twins(case: &Case, other: fn(&Record, States, &[usize]) -> Option<usize>) -> Outcome {
    let twin = &|record: &Record, own, states: States, twins: &[usize]| {
        let right = || twin(record, own, states, twins);
        other(record, states, twins).unwrap_or_else(right)
    };
    built(case, &Steps { twin, ..STEPS })
}

fn both_left_to_in(case: &Case) -> Outcome {
    by_twins(case, |record, states, twins| match *record {
        Both(p, _) if states[p] == Some(In) => Some(twins[p]),
        _ => None,
    })
}

fn either_of_face(case: &Case) -> Outcome {
    by_twins(case, |record, states, twins| match *record {
        Either(p, q) if matches!(states[p], Some(Single(_))) => Some(twins[q]),
        _ => None,
    })
}

fn equal_states(case: &Case) -> Outcome {
    by_twins(case, |record, states, twins| match *record {
        Both(p, q) if states[p] == states[q] => Some(twins[p]),
        _ => None,
    })
}

fn complement_as_operand(case: &Case) -> Outcome {
    by_twins(case, |record, _, twins| match *record {
        Complement(p) => Some(twins[p]),
        _ => None,
    })
}

/// The other operand where one has the state by which both, and by which either, leaves it. States are those of what is read in place of the
/// operands: the same as theirs, if all twins are right.
fn by_passing(case: &Case, of_both: State, of_either: State) -> Outcome {
    let twin = &|record: &Record, own, states: States, twins: &[usize]| {
        let (passing, p, q) = match *record {
            Both(p, q) => (of_both, twins[p], twins[q]),
            Either(p, q) => (of_either, twins[p], twins[q]),
            _ => return own,
        };
        match [p, q].map(|operand| states[operand] == Some(passing)) {
            [true, _] => q,
            [_, true] => p,
            _ => own,
        }
    };
    built(case, &Steps { twin, ..STEPS })
}

fn both_of_out(case: &Case) -> Outcome {
    by_passing(case, Out, Out)
}

fn either_of_in(case: &Case) -> Outcome {
    by_passing(case, In, In)
}

fn by_version(case: &Case, all: Version) -> Outcome {
    let version = &|_| all;
    built(case, &Steps { version, ..STEPS })
}

fn all_version_1(case: &Case) -> Outcome {
    by_version(case, Version::One)
}

fn all_version_2(case: &Case) -> Outcome {
    by_version(case, Version::Two)
}

fn signs_ignored(case: &Case) -> Outcome {
    let product = |a: Interval, b: Interval| interval(a.low * b.low, a.high * b.high);
    built(case, &Steps { product, ..STEPS })
}

/// A word is not worked out where its record still has a state that stays.
fn by_staying(case: &Case, stays: fn(State) -> bool) -> Outcome {
    let worked_out = &|_: &Tape, number: usize, entries: &Entries, _| {
        let state = entries.states[number];
        !state.is_some_and(stays)
    };
    let steps = Steps {
        worked_out,
        ..STEPS
    };
    built(case, &steps)
}

fn decided_stays(case: &Case) -> Outcome {
    by_staying(case, |state| matches!(state, In | Out))
}

fn one_face_stays(case: &Case) -> Outcome {
    by_staying(case, |state| matches!(state, Single(_)))
}

fn first_axes(case: &Case) -> Outcome {
    let worked_out = &|tape: &Tape, number: usize, _: &Entries, level| {
        let (before, from) = tape.sheet.records.split_at(number);
        level == 0 || !matches!(from[0], X | Y | Z) || !before.contains(&from[0])
    };
    let steps = Steps {
        worked_out,
        ..STEPS
    };
    built(case, &steps)
}

fn by_restoring(case: &Case, restored: &dyn Fn(Tapes) -> Tape) -> Outcome {
    built(case, &Steps { restored, ..STEPS })
}

fn childrens_stays(case: &Case) -> Outcome {
    by_restoring(case, &|tapes| tapes.for_children)
}

fn last_stays(case: &Case) -> Outcome {
    by_restoring(case, &|tapes| tapes.last)
}

/// There is room for so many words, and a tape that needs more is written over the one before it.
fn over_640(case: &Case) -> Outcome {
    by_restoring(case, &|tapes| {
        if tapes.together > 640 {
            tapes.for_children
        } else {
            tapes.own
        }
    })
}

#[cfg(test)]
mod tests {
    use super::*;
    use crate::carried;
    use crate::expect::by_paper;
    use crate::random::Random;

    /// With the right states, a program that sees states through twins is right.
    #[test]
    fn states_seen_through_twins_are_the_same() {
        for number in 0..36 {
            let mut random = Random::of_case(1, "states", number);
            let case = carried::any(number, &mut random).case;
            assert_eq!(by_passing(&case, In, Out), by_paper(&case));
        }
    }
}
