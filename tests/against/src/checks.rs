//! The checks of a run, each of which counts as one.

use crate::afresh;
use crate::before_03;
use crate::carried_run;
use crate::case::{Call, Case, CALLS};
use crate::demand3_run;
use crate::group::{report, Group, Make, Setup};
use crate::refines;
use crate::relations;
use crate::row_11;
use crate::server::{Server, TRESPASSES};
use crate::sizes::{groups, Sizes};
use crate::slips::slips;
use crate::tally::Tally;
use crate::version_maps;
use crate::versions;
use crate::wrong_before;
use std::time::Instant;

/// A run of all checks: the numbers passed and failed so far, and what was covered.
struct Run<'a> {
    setup: &'a Setup,
    sizes: &'a Sizes,
    passed: u32,
    failed: u32,
    since: Instant,
    covered: Tally,
}

type Check = fn(&mut Run) -> Result<(), String>;

const CHECKS: [(&str, Check); 15] = [
    ("guard pages", guard_pages),
    ("comparison", comparison),
    ("codes reached", codes_reached),
    ("faces met", faces_met),
    ("versions met", versions_met),
    ("refines met", refines_met),
    ("carried down", carried_down),
    ("row 11", row_11),
    ("relations", relations),
    ("refined", refined),
    ("versions", both_versions),
    ("wrong rules", wrong_rules),
    ("demand 3", demand_3),
    ("wrong maps", wrong_maps),
    ("maps of before 2026-03", maps_of_before),
];

impl Run<'_> {
    /// Counts a check, with the time since the previous one.
    fn count(&mut self, what: &str, good: bool) {
        let seconds = self.since.elapsed().as_secs_f64();
        self.since = Instant::now();
        if good {
            println!("passed: {what} ({seconds:.1} s)");
            self.passed += 1;
        } else {
            println!("FAILED: {what} ({seconds:.1} s)");
            self.failed += 1;
        }
    }
}

/// Runs all checks. The last line is 'N passed, M failed'.
pub fn all(setup: &Setup, sizes: &Sizes) -> bool {
    println!("library {}, seed {}", setup.library, setup.seed);
    let mut run = Run {
        setup,
        sizes,
        passed: 0,
        failed: 0,
        since: Instant::now(),
        covered: Tally::default(),
    };
    for (name, check) in CHECKS {
        if let Err(problem) = check(&mut run) {
            run.count(&format!("{name}: {problem}"), false);
        }
    }
    println!("{} passed, {} failed", run.passed, run.failed);
    run.failed == 0
}

/// A server that goes past a slice, or writes to what is lent read-only, stops.
fn guard_pages(run: &mut Run) -> Result<(), String> {
    let mut server = Server::named(&run.setup.library)?;
    let mut stopped = 0;
    for (trespass, what) in TRESPASSES {
        if server.is_stopped_by(trespass) {
            stopped += 1;
        } else {
            println!("NOT STOPPED: {what}");
        }
    }
    let what = format!(
        "guard pages: {stopped} of {} trespasses stop the server",
        TRESPASSES.len()
    );
    run.count(&what, stopped == TRESPASSES.len());
    Ok(())
}

/// The library answers as the paper says, in every group of cases.
fn comparison(run: &mut Run) -> Result<(), String> {
    for group in groups(run.sizes) {
        let (tally, good) = group.run(run.setup)?;
        let found = if good {
            "no difference"
        } else {
            "a difference"
        };
        let what = format!("{}: {}, {found}", group.name, tally.calls());
        run.count(&what, good);
        run.covered.add(&tally);
    }
    run.covered.print_sorts();
    run.covered.print_outcomes();
    Ok(())
}

/// Each call gives all codes that it can and no other; reply 9 occurs with every sort of offset, and reply 7 for every
/// way to pass the limit.
fn codes_reached(run: &mut Run) -> Result<(), String> {
    let covered = &run.covered;
    let codes = CALLS.map(|call| covered.reached(call));
    let all: [&[u32]; CALLS.len()] = [
        &[0, 1, 2, 3, 4, 5],
        &[0, 1, 2, 3, 4, 5, 6, 7, 8],
        &[0, 1, 2, 3, 4, 5, 6, 7, 8, 9],
        &[0, 9],
        &[0, 1, 2, 3, 4, 5, 7, 9, 10],
    ];
    let with_map = [Call::Refine, Call::Open, Call::Lookup];
    let offsets = with_map.map(|call| covered.reached_all_offsets(call));
    let with_root = [Call::Build, Call::Refine, Call::Lookup];
    let ways = with_root.map(|call| covered.reached_all_ways(call));
    let what = "codes reached: every one of 0 to 10, no other, 9 for each sort of offset, and 7 for each way to pass 2^60";
    run.count(what, codes == all && [offsets, ways] == [[true; 3]; 2]);
    Ok(())
}

/// Both and either met every case of request 2026-03, and those beside it.
fn faces_met(run: &mut Run) -> Result<(), String> {
    let what = "faces met: builds joined a face with itself, with its complement, with one over the same operand and with others, in every way";
    run.count(what, run.covered.met_in_all_ways());
    Ok(())
}

/// Each call that takes a sheet had one of every version, and both versions met every case of request 2026-07.
fn versions_met(run: &mut Run) -> Result<(), String> {
    let calls = [Call::Check, Call::Build, Call::Refine, Call::Lookup];
    let all = calls.map(|call| run.covered.reached_all_versions(call));
    let what = "versions met: each call had sheets of versions 0, 1, 2, 3 and 255, and versions 1 and 2 bounds that end at 0, are 0 and begin at 0, and points on the face of their leaf";
    run.count(what, all == [true; 4] && run.covered.met_all_zeros());
    Ok(())
}

/// Maps were refined in every way, and refused for every two faults.
fn refines_met(run: &mut Run) -> Result<(), String> {
    let what = "refines met: gray leaves that become each class, at equal and greater depths, leaves that stand against the rules, and each two refusals";
    run.count(what, run.covered.refined_in_all_ways());
    Ok(())
}

/// A plain program that carries down builds as the paper says, and all that it can go wrong over occurs.
fn carried_down(run: &mut Run) -> Result<(), String> {
    let [_, _, refined, .., carried] = groups(run.sizes);
    let found = carried_run::run(run.setup, &carried)?;
    found.print();
    let (what, good) = found.line();
    run.count(&what, good);
    let make: Make = refines::usual;
    let along = carried_run::run(run.setup, &Group { make, ..refined })?;
    run.count(&along.line_along(), along.is_same());
    Ok(())
}

/// The library's builds are those of document 01's table with row 11 too, and the row refuses none. A lower limit,
/// by which it does, is noticed.
fn row_11(run: &mut Run) -> Result<(), String> {
    let [_, builds, _, _, _, damaged, ..] = groups(run.sizes);
    let [all, lower] = row_11::run(run.setup, [builds, damaged])?;
    match lower.different {
        Some((group, number)) => println!("    a limit of 2^60 - 1: case {number} of {group}"),
        None => println!("NOT NOTICED: a limit of 2^60 - 1"),
    }
    let found = match all.different {
        Some((group, number)) => format!("a difference in case {number} of {group}"),
        None => "no difference".into(),
    };
    let what = format!(
        "row 11: {} builds, {} smaller cubes tested, {} of them with bounds at 2^60, {} refused, {found}",
        all.builds, all.tested.cubes, all.tested.at_limit, all.refused
    );
    let same = all.different.is_none() && all.refused == 0;
    run.count(
        &what,
        same && lower.different.is_some() && lower.refused > 0,
    );
    Ok(())
}

/// The library's answers to different calls are consistent.
fn relations(run: &mut Run) -> Result<(), String> {
    let held = relations::run(run.setup, run.sizes.related())?;
    if let Some(told) = &held.broken {
        println!("BROKEN: {told}");
    }
    let counts = [
        held.sheets_refused,
        held.maps_refused,
        held.bounds_refused,
        held.maps_built,
        held.maps_refined,
    ];
    let [sheets, maps, bounds, built, refined] = counts;
    let what = format!(
        "relations: {sheets} refused sheets, {maps} refused maps, {bounds} refused bounds, {built} built and {refined} refined maps, given to all calls"
    );
    run.count(&what, held.broken.is_none() && !counts.contains(&0));
    Ok(())
}

/// Refined maps are those built afresh, and those refined in two steps.
fn refined(run: &mut Run) -> Result<(), String> {
    let held = afresh::run(run.setup, run.sizes.afresh())?;
    if let Some(told) = &held.broken {
        println!("REFINED: {told}");
    }
    let (what, good) = held.line();
    run.count(&what, good);
    Ok(())
}

/// Equal records in both versions: what is alike, and where it differs.
fn both_versions(run: &mut Run) -> Result<(), String> {
    let held = versions::run(run.setup, run.sizes.related())?;
    if let Some(told) = &held.broken {
        println!("VERSIONS: {told}");
    }
    let (what, good) = held.line();
    run.count(&what, good);
    let found = version_maps::run(run.setup, run.sizes.sheets())?;
    found.print();
    for (what, good) in found.lines() {
        run.count(&what, good);
    }
    Ok(())
}

/// The comparison that found no difference notices each wrong rule.
fn wrong_rules(run: &mut Run) -> Result<(), String> {
    let (mut noticed, mut of) = (0, 0);
    for slip in slips() {
        let (_, difference) = slip.group.compare(run.setup, &slip.oracle)?;
        of += 1;
        match difference {
            Some(found) => {
                println!("    {}: case {}", slip.name, found.number);
                noticed += 1;
            }
            None => println!("NOT NOTICED: {}", slip.name),
        }
    }
    let what = format!("wrong rules: {noticed} of {of} noticed");
    run.count(&what, noticed == of);
    Ok(())
}

fn demand_3(run: &mut Run) -> Result<(), String> {
    let found = demand3_run::run(run.setup, run.sizes.sheets())?;
    found.print();
    let counts = found.counts;
    let what = format!("demand 3, points: {} points agree", counts.points);
    let in_both = !counts.maps.contains(&0) && !counts.on_faces.contains(&0);
    run.count(&what, found.point.is_none() && in_both);
    let what = format!(
        "demand 3, no touch: {} white and black of one map, {} of two",
        counts.pairs, counts.pairs_of_two_maps
    );
    run.count(&what, found.touch.is_none());
    Ok(())
}

/// The checks that found demand 3 kept notice maps that break it.
fn wrong_maps(run: &mut Run) -> Result<(), String> {
    let (turned, noticed) = demand3_run::turned_over(run.setup, run.sizes.turned_over())?;
    let strip = demand3_run::strip_is_noticed()?;
    let touch = demand3_run::touch_is_noticed()?;
    println!("    the strip between corners: {strip}; [0, 2] called Out in version 1 touches, and [-2, 0] called In in version 2: {touch}");
    let what = format!("wrong maps: {noticed} of {turned} leaves turned over are noticed");
    run.count(&what, strip && touch && turned > 0 && noticed == turned);
    Ok(())
}

/// Maps of the rule before request 2026-03 keep demand 3, and the library's maps keep what they answer.
fn maps_of_before(run: &mut Run) -> Result<(), String> {
    let found = before_03::run(run.setup, run.sizes.sheets_before())?;
    found.print();
    let wrong = wrong_before::run(run.setup, run.sizes.turned_over())?;
    for (what, good) in found.lines().into_iter().chain([wrong.line()]) {
        run.count(&what, good);
    }
    Ok(())
}

/// Runs one case again.
pub fn replay(setup: &Setup, case: &Case) -> Result<bool, String> {
    Ok(report(case, &mut Server::named(&setup.library)?))
}

/// Runs one numbered case of a group again.
pub fn one_case(setup: &Setup, sizes: &Sizes, name: &str, number: u64) -> Result<bool, String> {
    let all = groups(sizes);
    let group = all.iter().find(|group| group.name == name);
    let made = group.ok_or("no such group")?.case(setup.seed, number);
    println!("{}", made.labels.join(", "));
    replay(setup, &made.case)
}
