//! A group of cases, run on two servers and compared.

use crate::builds::Made;
use crate::case::{hex, Case, Outcome};
use crate::expect::{by_paper, Oracle};
use crate::random::Random;
use crate::server::Server;
use crate::shrink;
use crate::tally::Tally;
use std::sync::atomic::{AtomicU64, Ordering};

/// Makes the case with a given number, from a random generator of its own.
pub type Make = fn(u64, &mut Random) -> Made;

pub struct Group {
    pub name: &'static str,
    pub make: Make,
    pub cases: u64,
}

/// What all groups of a run have in common.
pub struct Setup {
    pub seed: u64,
    /// Which server: "shipped" or "native".
    pub library: String,
}

/// The command that runs this program, from the top of the repository.
const COMMAND: &str = "cargo run --release --offline --manifest-path tests/against/Cargo.toml \
                       --target-dir target/cargo --";

/// Does some work for each number below `count`, on two threads, one per core of the smallest machine, each
/// with a server and a result of its own. The work returns whether to continue.
pub fn on_two_servers<T: Default + Send>(
    setup: &Setup,
    count: u64,
    work: impl Fn(u64, &mut Server, &mut T) -> Result<bool, String> + Sync,
) -> Result<[T; 2], String> {
    let next = AtomicU64::new(0);
    let part = || -> Result<T, String> {
        let mut server = Server::named(&setup.library)?;
        let mut result = T::default();
        loop {
            let number = next.fetch_add(1, Ordering::Relaxed);
            if number >= count {
                return Ok(result);
            }
            if !work(number, &mut server, &mut result)? {
                next.store(count, Ordering::Relaxed);
            }
        }
    };
    let results = std::thread::scope(|scope| {
        let threads = [scope.spawn(part), scope.spawn(part)];
        threads.map(|thread| thread.join().unwrap_or(Err("a thread failed".into())))
    });
    let [first, second] = results;
    Ok([first?, second?])
}

/// A case for which the library and the oracle differ.
pub struct Difference {
    pub number: u64,
    pub case: Case,
}

impl Group {
    pub fn case(&self, seed: u64, number: u64) -> Made {
        (self.make)(number, &mut Random::of_case(seed, self.name, number))
    }

    /// Runs all cases. Shrinks and prints a difference. Returns what was covered, and whether there was no
    /// difference.
    pub fn run(&self, setup: &Setup) -> Result<(Tally, bool), String> {
        let (tally, difference) = self.compare(setup, &by_paper)?;
        if let Some(found) = &difference {
            let (number, seed, library) = (found.number, setup.seed, &setup.library);
            println!("DIFFERENCE in {}, case {number} of seed {seed}:", self.name);
            println!(
                "{COMMAND} case '{}' {number} seed {seed} library {library}",
                self.name
            );
            let mut server = Server::named(library)?;
            let small = shrink::shrunk(&found.case, &mut server);
            println!("a smaller case:");
            println!(
                "{COMMAND} replay {} library {library}",
                hex(&small.request())
            );
            report(&small, &mut server);
        }
        Ok((tally, difference.is_none()))
    }

    /// Compares the library with an oracle, up to the first difference.
    pub fn compare(
        &self,
        setup: &Setup,
        oracle: &Oracle,
    ) -> Result<(Tally, Option<Difference>), String> {
        type Part = (Tally, Option<Difference>);
        let ask = |number, server: &mut Server, (tally, difference): &mut Part| {
            let made = self.case(setup.seed, number);
            let expected = oracle(&made.case);
            tally.count(&made, &expected);
            if server.ask(&made.case) == Ok(expected) {
                return Ok(true);
            }
            let case = made.case;
            *difference = Some(Difference { number, case });
            Ok(false)
        };
        let [(mut all, first), (other, second)] = on_two_servers(setup, self.cases, ask)?;
        all.add(&other);
        let differences = [first, second].into_iter().flatten();
        Ok((all, differences.min_by_key(|found| found.number)))
    }
}

/// Runs one case, prints both answers, and returns whether they are the same.
pub fn report(case: &Case, server: &mut Server) -> bool {
    let (expected, given) = (by_paper(case), server.ask(case));
    println!("  the paper:   {}", answer(&expected));
    match &given {
        Ok(outcome) => println!("  the library: {}", answer(outcome)),
        Err(stopped) => println!("  the library: {stopped}"),
    }
    if let Ok(outcome) = &given {
        let mut bytes = expected.out.iter().zip(&outcome.out);
        if let Some(at) = bytes.position(|(a, b)| a != b) {
            println!("  the first byte of out that differs: {at}");
        }
    }
    given == Ok(expected)
}

/// An outcome on one line, with only the start of a long buffer.
fn answer(outcome: &Outcome) -> String {
    let replies = outcome.replies.iter();
    let replies: Vec<String> = replies
        .map(|reply| format!("{} with {}", reply.code, reply.number))
        .collect();
    let shown = &outcome.out[..outcome.out.len().min(200)];
    let changed = if outcome.inputs_same {
        ""
    } else {
        ", sheet or map changed"
    };
    format!("{}{changed}, out {}", replies.join(", "), hex(shown))
}
