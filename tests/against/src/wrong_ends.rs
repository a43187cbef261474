//! Wrong rules of the number in reply 7, for all calls that give it.

use crate::case::{Case, Outcome};
use crate::fault::Fault;
use crate::wrong_reads::changed_replies;
use paper::bounds::{self, interval, End, Interval, Past, FURTHEST};
use paper::reply;

/// The paper's replies, with another number in reply 7.
fn numbered(case: &Case, number: impl Fn(&Fault) -> usize) -> Outcome {
    let fault = Fault::of(case);
    changed_replies(case, |given| {
        if let (7, Some(fault)) = (given.code, &fault) {
            *given = reply(7, number(fault));
        }
    })
}

/// The same, with the low end of the record or its high end.
fn by_end(case: &Case, is_low: impl Fn(&Fault) -> bool) -> Outcome {
    numbered(case, |fault| {
        let end = if is_low(fault) { End::Low } else { End::High };
        Past { end, ..fault.past }.number()
    })
}

/// The high end if it lies outside, otherwise the low end.
pub fn high_end_first(case: &Case) -> Outcome {
    by_end(case, |fault| {
        (-FURTHEST..=FURTHEST).contains(&fault.bounds().high)
    })
}

/// The low end only if it lies below -2^60; one above 2^60 counts as the high end's.
pub fn low_end_only_below(case: &Case) -> Outcome {
    by_end(case, |fault| fault.bounds().low < -FURTHEST)
}

/// The record number, plus 1 for the high end.
pub fn not_doubled(case: &Case) -> Outcome {
    numbered(case, |fault| fault.past.number() - fault.past.record)
}

/// The record number alone, as before request 2026-04.
pub fn without_end(case: &Case) -> Outcome {
    numbered(case, |fault| fault.past.record)
}

/// The first record whose low end lies outside, even if the high end of an earlier one does.
pub fn low_end_of_any(case: &Case) -> Outcome {
    numbered(case, |fault| {
        let all = bounds::over(&fault.sheet, &fault.root);
        let is_low =
            |of: &Option<Interval>| of.is_some_and(|of| of.end_outside(FURTHEST) == Some(End::Low));
        let first = match all.iter().position(is_low) {
            Some(record) => Past {
                record,
                end: End::Low,
            },
            None => fault.past,
        };
        first.number()
    })
}

/// The end of an operand that the record's end was worked out from, in place of the record's end. It is the other one
/// if the operand's end of the same name alone would give the record another end.
fn end_of_operand(case: &Case, which: fn(&[usize]) -> usize) -> Outcome {
    by_end(case, |fault| {
        let mut before = fault.before();
        let is_low = fault.past.end == End::Low;
        let end = |of: Interval| if is_low { of.low } else { of.high };
        let own = end(fault.bounds_from(&before));
        let operand = &mut before[which(&fault.record().operands())];
        *operand = operand.map(|of| interval(end(of), end(of)));
        let is_same = end(fault.bounds_from(&before)) == own;
        is_low == is_same
    })
}

/// A negative factor changes the ends over, and so does a square of numbers below 0.
pub fn end_of_first_operand(case: &Case) -> Outcome {
    end_of_operand(case, |operands| operands[0])
}

/// A difference changes the ends of its second operand over too.
pub fn end_of_last_operand(case: &Case) -> Outcome {
    end_of_operand(case, |operands| operands[operands.len() - 1])
}
