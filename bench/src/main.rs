//! Times building, refining and looking up by the proved library and by plain Rust programs, and measures its stack.
//! usage: bench [build] [refine] [lookup] [stack] [growth], the first four where none is named; bench rooms FILE..
mod baseline;
mod buildings;
mod builds;
mod carrying;
mod clock;
mod colour;
mod drawing;
mod growth;
mod library;
mod lookups;
mod records;
mod refines;
mod scan;
mod sheets;
mod stack;
mod tape;
#[cfg(test)]
mod tests;
mod turns;

use baseline::Root;
use sheets::Case;
use std::hint::black_box;

const USAGE: &str = "usage: bench [build] [refine] [lookup] [stack] [growth], bench rooms FILE..";

fn main() {
    let words: Vec<String> = std::env::args().skip(1).collect();
    match words.split_first() {
        None => [builds::speed, refines::speed, lookups::speed, stack]
            .iter()
            .for_each(|part| part()),
        Some((word, paths)) if word == "rooms" => paths.iter().for_each(|path| room(path)),
        Some(_) => words.iter().for_each(|word| named(word)()),
    }
}

/// The measurement that a word names.
fn named(word: &str) -> fn() {
    match word {
        "build" => builds::speed,
        "growth" => growth::tables,
        "refine" => refines::speed,
        "lookup" => lookups::speed,
        "stack" => stack,
        _ => {
            eprintln!("{USAGE}");
            std::process::exit(2);
        }
    }
}

fn leaves(map: &[u8]) -> usize {
    (map.len() - 19) / 3
}

/// The stack of a build that is gray to depth 10, of an empty call, and of the baseline.
fn stack() {
    let Case {
        records,
        sheet,
        root,
    } = sheets::point();
    let map = baseline::build(&sheet, &root).expect("the sheet is good");
    let deepest = map.bytes[19..]
        .chunks(3)
        .filter(|leaf| leaf[0] == 10 && leaf[1] == 4)
        .count();
    println!("a sheet of {records} records at depth 10: {} cubes, {} leaves, {deepest} gray ones at level 10", map.cubes, leaves(&map.bytes));
    println!("an empty call: {} bytes of stack", stack::used(|| ()));
    let plain = stack::used(|| _ = black_box(baseline::build(&sheet, &root)));
    println!("the baseline's build: {plain} bytes of stack, and vectors");
    let mut out = vec![0; map.bytes.len()];
    let mut reply = Ok(0);
    let proved = stack::used(|| reply = library::build(&sheet, &root, &mut out));
    assert_eq!(reply, Ok(map.bytes.len()));
    assert!(out == map.bytes, "the library's map differs");
    println!("the library's build: {proved} bytes of stack");
    println!(
        "the library's refine, of a map of each depth to depth 10: {} bytes of stack at most",
        refines::stack_used()
    );
    println!(
        "the library's lookup: {} bytes of stack",
        lookups::stack_used()
    );
}

/// Prints the number of leaves of a room's map by class; the file is an input of the listing program.
fn room(path: &str) {
    let bytes = std::fs::read(path).expect("a file that can be read");
    let Some((head, sheet)) = bytes.split_first_chunk::<14>() else {
        return println!("{path}: refused 1 0");
    };
    let corner = [0, 4, 8].map(|at| i32::from_be_bytes(head[at..at + 4].try_into().unwrap()));
    let root = Root {
        corner,
        k: head[12],
        d: head[13],
    };
    match baseline::build(sheet, &root) {
        Err((code, number)) => println!("{path}: refused {code} {number}"),
        Ok(map) => {
            let [white, black, face, complement, gray] = [0, 1, 2, 3, 4].map(|class| {
                map.bytes[19..]
                    .chunks(3)
                    .filter(|leaf| leaf[1] == class)
                    .count()
            });
            println!(
                "{path}: {white} white, {black} black, {face} terminal by a face, {complement} by a complement, {gray} gray; {} leaves, {} bytes",
                leaves(&map.bytes),
                map.bytes.len()
            );
        }
    }
}
