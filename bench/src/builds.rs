//! Building, by the library and by the two plain programs.
use crate::sheets::Case;
use crate::turns::{each, interleaved, Times, RUNS};
use crate::{baseline, buildings, carrying, leaves, library, sheets};
use std::hint::black_box;

/// The times of one build by each program: the baseline, the one that carries down, and the library.
pub struct Timed {
    pub cubes: usize,
    pub leaves: usize,
    pub times: [Times; 3],
}

impl Timed {
    /// Builds the map by each program, compares the three, and then times them.
    pub fn of(Case { sheet, root, .. }: &Case) -> Timed {
        let map = baseline::build(sheet, root).expect("the sheet is good");
        let carried = carrying::build(sheet, root).expect("the sheet is good");
        assert!(carried.bytes == map.bytes, "what is carried down differs");
        let mut out = vec![0; map.bytes.len()];
        assert_eq!(library::build(sheet, root, &mut out), Ok(map.bytes.len()));
        assert!(out == map.bytes, "the library's map differs");
        let times = interleaved([
            &mut || _ = black_box(baseline::build(black_box(sheet), root)),
            &mut || _ = black_box(carrying::build(black_box(sheet), root)),
            &mut || _ = black_box(library::build(black_box(sheet), root, &mut out)),
        ]);
        Timed {
            cubes: map.cubes,
            leaves: leaves(&map.bytes),
            times,
        }
    }

    /// The ratios of the library's times to those of each plain program, by the medians and by the least.
    pub fn ratios(&self) -> [[f64; 2]; 2] {
        let [baseline, carrying, library] = &self.times;
        [baseline, carrying].map(|plain| plain.ratios(library))
    }
}

fn row(case: &Case) {
    let timed = Timed::of(case);
    let Case { records, root, .. } = case;
    print!(
        "{records:7} {:5} {:7} {:7}",
        root.d, timed.cubes, timed.leaves
    );
    for Times { median, least } in &timed.times {
        let [median, least] = [median, least].map(|time| each(*time, timed.cubes));
        print!(" {median:8.1} ({least:7.1})");
    }
    for [median, least] in timed.ratios() {
        print!(" {median:11.3} ({least:6.3})");
    }
    println!();
}

fn table(what: &str, cases: &[Case]) {
    println!("{what}");
    println!("records depth   cubes  leaves           baseline           carrying            library   library / baseline   library / carrying");
    cases.iter().for_each(row);
}

pub fn speed() {
    println!("building: nanoseconds of processor time per cube, median of {RUNS} runs (least)");
    table("corridors, without a product", &sheets::corridors());
    table("vaults, with products", &sheets::vaulted());
    let sizes = [50, 150, 256];
    table("rooms", &sizes.map(|records| buildings::rooms(records, 10)));
    table(
        "towers",
        &sizes.map(|records| buildings::tower(records, 10)),
    );
}
