//! Wrong rules of looking up.

use crate::case::{Case, Lookup, Outcome};
use crate::expect::{by_paper, of_answers};
use paper::{lookup, map, reply, sheet, Reply};

/// The outcome of lookups by another rule; for any other case, the paper's outcome.
fn looked_up(case: &Case, rule: &dyn Fn(&Lookup, [i32; 3]) -> Reply) -> Outcome {
    match case {
        Case::Lookup(asked) => of_answers(asked, &|point| rule(asked, point)),
        _ => by_paper(case),
    }
}

pub fn high_planes(case: &Case) -> Outcome {
    looked_up(case, &|asked, point| {
        let given = lookup::lookup(&asked.sheet, &asked.map, point);
        let nearer = point.map(|at| at.saturating_sub(1));
        match (given.code, lookup::lookup(&asked.sheet, &asked.map, nearer)) {
            (10, Reply { code: 0, number }) => reply(0, number as usize),
            _ => given,
        }
    })
}

pub fn faces_last(case: &Case) -> Outcome {
    looked_up(
        case,
        &|asked, point| match (sheet::read(&asked.sheet), map::read(&asked.map)) {
            (Ok(_), Err(refusal)) => refusal,
            _ => lookup::lookup(&asked.sheet, &asked.map, point),
        },
    )
}

pub fn point_first(case: &Case) -> Outcome {
    looked_up(case, &|asked, point| {
        let given = lookup::lookup(&asked.sheet, &asked.map, point);
        let sheet = sheet::read(&asked.sheet);
        let opened = sheet.and_then(|sheet| map::read_for(&asked.map, &sheet));
        match opened {
            Ok(map) if given.code == 7 && !map.root.cube().holds(point) => reply(10, 0),
            _ => given,
        }
    })
}
