//! The outcome of a case by document 01.

use crate::case::{Build, Case, Lookup, Outcome, Refine};
use paper::{build, lookup, map, refine, sheet, Refusal, Reply};

/// Gives the expected outcome of a case. There is one oracle by the paper, and one for each wrong rule.
pub type Oracle = dyn Fn(&Case) -> Outcome + Sync;

/// By the paper.
pub fn by_paper(case: &Case) -> Outcome {
    match case {
        Case::Check(lent) => of_reply(sheet::check(&lent.bytes)),
        Case::Open(lent) => of_reply(map::open(&lent.bytes)),
        Case::Build(asked) => of_map(asked, build::map_of(&asked.sheet, &asked.root)),
        Case::Refine(asked) => {
            let new = refine::map_of(&asked.sheet, &asked.map, asked.d);
            of_refined(asked, new)
        }
        Case::Lookup(asked) => match lookup::open(&asked.sheet, &asked.map) {
            Ok(opened) => of_answers(asked, &|point| opened.answer(point)),
            Err(refusal) => of_answers(asked, &|_| refusal),
        },
    }
}

/// The outcome of a call with one reply and no buffer.
pub fn of_reply(reply: Reply) -> Outcome {
    Outcome {
        replies: vec![reply],
        out: vec![],
        inputs_same: true,
    }
}

/// The outcome of a build with this map, or with this refusal (reply 8 aside).
pub fn of_map(asked: &Build, map: Result<Vec<u8>, Refusal>) -> Outcome {
    lent(asked.out_before(), map)
}

/// The same of a refine.
pub fn of_refined(asked: &Refine, map: Result<Vec<u8>, Refusal>) -> Outcome {
    lent(asked.out_before(), map)
}

fn lent(mut out: Vec<u8>, map: Result<Vec<u8>, Refusal>) -> Outcome {
    let reply = match map {
        Ok(map) => build::lend(&map, &mut out),
        Err(refusal) => refusal,
    };
    Outcome {
        out,
        ..of_reply(reply)
    }
}

/// The outcome of lookups with these replies.
pub fn of_answers(asked: &Lookup, answer: &dyn Fn([i32; 3]) -> Reply) -> Outcome {
    Outcome {
        replies: asked.points.iter().map(|&point| answer(point)).collect(),
        out: vec![],
        inputs_same: true,
    }
}
