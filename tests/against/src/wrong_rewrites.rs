//! Wrong rules of what refining writes besides leaves, and of what it returns.

use crate::case::{Case, Outcome, Refine};
use crate::expect::by_paper;
use crate::slips::Wrong;
use paper::map::{HEADER, LEAF};
use paper::Reply;

pub const ALL: [(&str, Wrong); 6] = [
    ("the old depth in the header", old_depth),
    ("the old length in the header", old_length),
    ("the number of leaves returned", leaves_returned),
    ("8 with the old map's length", old_needed),
    ("later bytes cleared", later_cleared),
    ("a short buffer filled", short_filled),
];

/// The paper's outcome of a refine, changed.
fn changed(case: &Case, change: impl FnOnce(&Refine, &mut Outcome)) -> Outcome {
    let mut outcome = by_paper(case);
    if let Case::Refine(asked) = case {
        change(asked, &mut outcome);
    }
    outcome
}

/// Some bytes of the header are those of the old map.
fn header_kept(case: &Case, bytes: std::ops::Range<usize>) -> Outcome {
    changed(case, |asked, outcome| {
        if outcome.replies[0].code == 0 {
            outcome.out[bytes.clone()].copy_from_slice(&asked.map[bytes]);
        }
    })
}

fn old_depth(case: &Case) -> Outcome {
    header_kept(case, HEADER - 1..HEADER)
}

fn old_length(case: &Case) -> Outcome {
    header_kept(case, 0..4)
}

fn leaves_returned(case: &Case) -> Outcome {
    changed(case, |_, outcome| {
        if let Reply { code: 0, number } = &mut outcome.replies[0] {
            *number = (*number - HEADER as u64) / LEAF as u64;
        }
    })
}

fn old_needed(case: &Case) -> Outcome {
    changed(case, |asked, outcome| {
        if let Reply { code: 8, number } = &mut outcome.replies[0] {
            *number = asked.map.len() as u64;
        }
    })
}

fn later_cleared(case: &Case) -> Outcome {
    changed(case, |_, outcome| {
        if let Reply { code: 0, number } = outcome.replies[0] {
            outcome.out[number as usize..].fill(0);
        }
    })
}

fn short_filled(case: &Case) -> Outcome {
    changed(case, |asked, outcome| {
        if outcome.replies[0].code == 8 {
            let new = paper::refine::map_of(&asked.sheet, &asked.map, asked.d);
            outcome
                .out
                .copy_from_slice(&new.unwrap_or_default()[..asked.out_len]);
        }
    })
}
