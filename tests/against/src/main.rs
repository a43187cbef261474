//! Compares the proved library with document 01 in plain Rust, and tests demand 3 on its maps.
//!
//! usage: against [SORT N].. [seed S] [library shipped|native]    all checks, with N calls of a SORT:
//!                                                                 checks, builds, refines, opens or lookups
//!        against replay HEX [library ..]                          one case that was printed
//!        against case GROUP NUMBER [seed S] [library ..]          one case of a group

mod afresh;
mod alone;
mod before_03;
mod builds;
mod carried;
mod carried_run;
mod carrying;
mod case;
mod checks;
mod damage_maps;
mod damage_sheets;
mod demand3;
mod demand3_run;
mod ends;
mod every_byte;
mod expect;
mod fault;
mod features;
mod first_cubes;
mod graphs;
mod group;
mod handed;
mod limits;
mod lookups;
mod maker;
mod maps;
mod meetings;
mod mentions;
mod other_leaves;
mod other_sheets;
mod plan;
mod products;
mod random;
mod refined;
mod refines;
mod relations;
mod request;
mod rooms;
mod row_11;
mod server;
mod settings;
mod shrink;
mod sizes;
mod slips;
mod spans;
mod steps;
mod tally;
mod trees;
mod two_faults;
mod version_maps;
mod versions;
mod wrong_before;
mod wrong_builds;
mod wrong_carried;
mod wrong_ends;
mod wrong_lookups;
mod wrong_mentions;
mod wrong_reads;
mod wrong_refines;
mod wrong_refusals;
mod wrong_rewrites;
mod wrong_versions;
mod zeros;

use group::Setup;
use sizes::Sizes;
use std::process::ExitCode;

/// The settings of the command line, in pairs of words.
fn settings(words: &[&str]) -> Result<(Setup, Sizes), String> {
    let mut setup = Setup {
        seed: 1,
        library: "shipped".into(),
    };
    let mut sizes = Sizes {
        checks: 20_000,
        builds: 20_000,
        refines: 20_000,
        opens: 20_000,
        lookups: 20_000,
    };
    let number = |text: &str| text.parse().map_err(|_| format!("{text}: not a number"));
    for two in words.chunks(2) {
        match *two {
            ["checks", count] => sizes.checks = number(count)?,
            ["builds", count] => sizes.builds = number(count)?,
            ["refines", count] => sizes.refines = number(count)?,
            ["opens", count] => sizes.opens = number(count)?,
            ["lookups", count] => sizes.lookups = number(count)?,
            ["seed", seed] => setup.seed = number(seed)?,
            ["library", name] => setup.library = name.into(),
            _ => return Err(format!("unknown: {}", two.join(" "))),
        }
    }
    Ok((setup, sizes))
}

fn run(words: &[&str]) -> Result<bool, String> {
    match *words {
        ["replay", text, ref rest @ ..] => {
            let bytes = case::of_hex(text).ok_or("replay: not hex")?;
            let case = case::Case::of_request(&bytes).ok_or("replay: not a case")?;
            checks::replay(&settings(rest)?.0, &case)
        }
        ["case", group, number, ref rest @ ..] => {
            let number = number.parse().map_err(|_| "case: not a number")?;
            let (setup, sizes) = settings(rest)?;
            checks::one_case(&setup, &sizes, group, number)
        }
        _ => {
            let (setup, sizes) = settings(words)?;
            Ok(checks::all(&setup, &sizes))
        }
    }
}

fn main() -> ExitCode {
    let words: Vec<String> = std::env::args().skip(1).collect();
    let words: Vec<&str> = words.iter().map(String::as_str).collect();
    match run(&words) {
        Ok(true) => ExitCode::SUCCESS,
        Ok(false) => ExitCode::FAILURE,
        Err(problem) => {
            println!("{problem}");
            println!("0 passed, 1 failed");
            ExitCode::FAILURE
        }
    }
}
