//! Relations that must hold between the library's own answers, whatever the paper says of each.

use crate::builds::Made;
use crate::case::{hex, Build, Case, Lent, Lookup, Outcome, Refine, PLACINGS};
use crate::group::{on_two_servers, Setup};
use crate::random::Random;
use crate::server::Server;
use crate::{builds, ends, every_byte, lookups, refines};
use paper::colour::{TERMINAL, TERMINAL_COMPLEMENT};
use paper::map::{HEADER, LEAF};
use paper::root::Root;
use paper::Reply;

/// How often each relation was tested, and what broke one.
#[derive(Default)]
pub struct Held {
    pub sheets_refused: u64,
    pub maps_refused: u64,
    pub bounds_refused: u64,
    pub maps_built: u64,
    pub maps_refined: u64,
    pub broken: Option<String>,
}

/// Runs a case, and returns its outcome.
pub type Ask<'a> = dyn FnMut(&Case) -> Result<Outcome, String> + 'a;

/// Tests the relations on `cases` builds, refines and lookups, on two servers, up to one that breaks them.
pub fn run(setup: &Setup, cases: u64) -> Result<Held, String> {
    let hold = |number, server: &mut Server, held: &mut Held| {
        let made = any(
            number,
            &mut Random::of_case(setup.seed, "relations", number),
        );
        held.hold(&made.case, &mut |case| server.ask(case))?;
        Ok(held.broken.is_none())
    };
    let [mut all, other] = on_two_servers(setup, cases, hold)?;
    all.sheets_refused += other.sheets_refused;
    all.maps_refused += other.maps_refused;
    all.bounds_refused += other.bounds_refused;
    all.maps_built += other.maps_built;
    all.maps_refined += other.maps_refined;
    all.broken = all.broken.or(other.broken);
    Ok(all)
}

/// A build, a refine or a lookup, with good and damaged sheets and maps in turn, and with bounds about the limit, each once.
pub fn any(number: u64, random: &mut Random) -> Made {
    let turn = number / 7;
    match number % 7 {
        0 => builds::any(number + 1, random),
        1 => every_byte::damaged_sheet(turn % 3, random),
        2 => every_byte::damaged_map(turn % 2, random),
        3 if turn < ends::sheet_cases() => ends::lookup(turn, random),
        4 if turn < ends::sheet_cases() => ends::refine(turn, random),
        5 => refines::any(number, random),
        _ => lookups::any(number, random),
    }
}

/// The build of a sheet over the root of a map, at depth 0, for a lookup that did not refuse the map, or a refine that did not
/// refuse the depth either.
fn over_its_root(case: &Case, given: &Outcome) -> Option<Case> {
    let is_refused = |reply: &Reply| [9, 6].contains(&reply.code);
    if given.replies.iter().any(is_refused) {
        return None;
    }
    let (Case::Refine(Refine { sheet, placing, .. }) | Case::Lookup(Lookup { sheet, placing, .. })) =
        case
    else {
        return None;
    };
    Some(Case::Build(Build {
        placing: placing % PLACINGS as u8,
        sheet: sheet.clone(),
        root: Root {
            d: 0,
            ..case.root()?
        },
        out_len: 0,
        out_seed: 1,
    }))
}

/// The lookup of a point with the sheet and the map of a refine.
fn at_its_corner(case: &Case) -> Option<Case> {
    let Case::Refine(refine) = case else {
        return None;
    };
    Some(Case::Lookup(Lookup {
        placing: refine.placing % PLACINGS as u8,
        sheet: refine.sheet.clone(),
        map: refine.map.clone(),
        points: vec![[0, 0, 0]],
    }))
}

impl Held {
    /// Runs a case, and then the calls that take its sheet or its map alone.
    fn hold(&mut self, case: &Case, ask: &mut Ask) -> Result<(), String> {
        let given = ask(case)?;
        let lent = |bytes: &[u8]| Lent {
            placing: case.placing() % PLACINGS as u8,
            bytes: bytes.to_vec(),
        };
        if let Some(sheet) = case.sheet() {
            let checked = ask(&Case::Check(lent(sheet)))?.replies[0];
            self.sheet(case, &given, checked);
            if checked.code != 0 {
                return Ok(());
            }
        }
        if let Some(map) = case.map() {
            let opened = ask(&Case::Open(lent(map)))?.replies[0];
            self.map(case, &given, opened, map);
        }
        if let Some(built) = over_its_root(case, &given) {
            let built = ask(&built)?.replies[0];
            self.bounds(case, &given, built);
        }
        if let (Case::Build(_) | Case::Refine(_), Reply { code: 0, number }) =
            (case, given.replies[0])
        {
            let map = given.out.get(..number as usize).unwrap_or_default();
            let opened = ask(&Case::Open(lent(map)))?.replies[0];
            self.built(case, number, opened);
        }
        if let Some(looked_up) = at_its_corner(case) {
            let looked_up = ask(&looked_up)?.replies[0];
            self.pair(case, given.replies[0], looked_up);
        }
        Ok(())
    }

    fn expect(&mut self, case: &Case, holds: bool, what: &str) {
        if !holds {
            let told = format!("{what}; replay {}", hex(&case.request()));
            self.broken = self.broken.take().or(Some(told));
        }
    }

    /// A sheet that a check refuses gets the same refusal from the other calls, and no other sheet does.
    fn sheet(&mut self, case: &Case, given: &Outcome, checked: Reply) {
        self.sheets_refused += u64::from(checked.code != 0);
        let holds = given.replies.iter().all(|reply| match checked.code {
            0 => !(1..=5).contains(&reply.code),
            _ => *reply == checked,
        });
        self.expect(case, holds, "zone_check disagrees about the sheet");
    }

    /// A lookup or a refine with a good sheet refuses a map that does not open, at the same offset or an earlier one. It
    /// refuses a map that opens only at a terminal leaf.
    fn map(&mut self, case: &Case, given: &Outcome, opened: Reply, map: &[u8]) {
        self.maps_refused += u64::from(opened.code != 0);
        let is_terminal = |offset: u64| {
            let class = map.get(offset as usize + 1);
            class.is_some_and(|class| [TERMINAL, TERMINAL_COMPLEMENT].contains(class))
        };
        let holds = given
            .replies
            .iter()
            .all(|reply| match (opened.code, reply.code) {
                (0, 9) => is_terminal(reply.number),
                (0, _) => true,
                (_, code) => code == 9 && reply.number <= opened.number,
            });
        self.expect(case, holds, "zone_open disagrees about the map");
    }

    /// A lookup or a refine is refused by 7 if a build over the map's root is, with the same number, and not otherwise.
    fn bounds(&mut self, case: &Case, given: &Outcome, built: Reply) {
        self.bounds_refused += u64::from(built.code == 7);
        let holds = given.replies.iter().all(|reply| match built.code {
            7 => *reply == built,
            _ => reply.code != 7,
        });
        self.expect(case, holds, "zone_build disagrees about the bounds");
    }

    /// A refine refuses a map exactly if a lookup with the same sheet does, with the same number.
    fn pair(&mut self, case: &Case, refined: Reply, looked_up: Reply) {
        let by_9 = |reply: Reply| (reply.code == 9).then_some(reply);
        let holds = by_9(refined) == by_9(looked_up);
        self.expect(case, holds, "zone_lookup disagrees about the map");
    }

    /// A map that was built or refined opens with as many leaves as it has.
    fn built(&mut self, case: &Case, length: u64, opened: Reply) {
        match case {
            Case::Refine(_) => self.maps_refined += 1,
            _ => self.maps_built += 1,
        }
        let leaves = (length - HEADER as u64) / LEAF as u64;
        let holds = (opened.code, opened.number) == (0, leaves);
        self.expect(case, holds, "zone_open disagrees about the built map");
    }
}

#[cfg(test)]
mod tests {
    use super::*;
    use crate::case::Call;
    use crate::expect::by_paper;

    /// Tests the relations on some cases answered by the paper, with the replies of one call changed.
    fn held(call: Call, change: fn(&mut Reply)) -> Held {
        let mut held = Held::default();
        for number in 0..300 {
            let made = any(number, &mut Random::of_case(1, "relations", number));
            let mut ask = |case: &Case| {
                let mut outcome = by_paper(case);
                if case.call() == call {
                    outcome.replies.iter_mut().for_each(change);
                }
                Ok(outcome)
            };
            held.hold(&made.case, &mut ask).unwrap();
            if held.broken.is_some() {
                break;
            }
        }
        held
    }

    #[test]
    fn the_paper_keeps_the_relations() {
        let held = held(Call::Check, |_| ());
        assert_eq!(held.broken, None);
        assert!(held.sheets_refused > 0 && held.maps_refused > 0);
        assert!(held.bounds_refused > 0 && held.maps_built > 0 && held.maps_refined > 0);
    }

    #[test]
    fn a_check_or_an_opening_that_lets_all_pass_is_noticed() {
        let pass = |reply: &mut Reply| reply.code = 0;
        assert!(held(Call::Check, pass).broken.is_some());
        assert!(held(Call::Open, pass).broken.is_some());
    }

    #[test]
    fn an_opening_that_miscounts_leaves_is_noticed() {
        let one_more = |reply: &mut Reply| reply.number += 1;
        assert!(held(Call::Open, one_more).broken.is_some());
    }

    #[test]
    fn other_refusals_of_a_build_or_a_lookup_are_noticed() {
        let other_record = |reply: &mut Reply| reply.number += u64::from(reply.code == 4);
        let other_end = |reply: &mut Reply| reply.number ^= u64::from(reply.code == 7);
        for call in [Call::Build, Call::Refine, Call::Lookup] {
            assert!(held(call, other_record).broken.is_some());
            assert!(held(call, other_end).broken.is_some());
        }
        let later = |reply: &mut Reply| reply.number += 3 * u64::from(reply.code == 9);
        for call in [Call::Refine, Call::Lookup] {
            assert!(held(call, later).broken.is_some());
        }
    }

    #[test]
    fn a_refine_that_lets_a_map_pass_is_noticed() {
        let passed = |reply: &mut Reply| {
            if reply.code == 9 {
                *reply = paper::reply(6, 0);
            }
        };
        assert!(held(Call::Refine, passed).broken.is_some());
    }
}
