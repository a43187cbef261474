//! Refining, beside building at the new depth: by the library, and by the plain program that carries down.
use crate::sheets::Case;
use crate::turns::{interleaved, Times, RUNS};
use crate::{buildings, carrying, leaves, library, sheets, stack, Root};
use std::hint::black_box;

/// A map of one depth that is refined to another.
pub struct Refined {
    pub old: Vec<u8>,
    pub new: Vec<u8>,
    cubes: usize,
}

/// The case at another depth.
fn at_depth(case: &Case, d: u8) -> Root {
    Root { d, ..case.root }
}

impl Refined {
    /// Builds the old map, refines it by both programs, and compares the new one with the map built afresh.
    pub fn of(case: &Case, [from, to]: [u8; 2]) -> Refined {
        let sheet = &case.sheet;
        let [old, new] = [from, to].map(|d| {
            let built = carrying::build(sheet, &at_depth(case, d));
            built.expect("the sheet is good")
        });
        let plain = carrying::refine(sheet, &old.bytes, to).expect("the map is good");
        assert!(plain.bytes == new.bytes, "the plain refined map differs");
        let mut out = vec![0; new.bytes.len()];
        let done = library::refine(sheet, &old.bytes, to, &mut out);
        assert_eq!(done, Ok(out.len()));
        assert!(out == new.bytes, "the library's refined map differs");
        Refined {
            old: old.bytes,
            new: new.bytes,
            cubes: plain.cubes,
        }
    }

    /// The number of gray leaves of the old map.
    fn gray(&self) -> usize {
        let leaves = self.old[19..].chunks(3);
        leaves.filter(|leaf| leaf[1] == 4).count()
    }

    /// The times of building the new map and of refining the old one, by the library and then by the plain program.
    fn times(&self, Case { sheet, root, .. }: &Case, to: u8) -> [Times; 4] {
        let (old, root) = (&self.old, &Root { d: to, ..*root });
        let [mut built, mut refined] = [(); 2].map(|()| vec![0; self.new.len()]);
        interleaved([
            &mut || _ = black_box(library::build(black_box(sheet), root, &mut built)),
            &mut || _ = black_box(library::refine(black_box(sheet), old, to, &mut refined)),
            &mut || _ = black_box(carrying::build(black_box(sheet), root)),
            &mut || _ = black_box(carrying::refine(black_box(sheet), old, to)),
        ])
    }
}

fn row(case: &Case, depths: [u8; 2]) {
    let refined = Refined::of(case, depths);
    let [from, to] = depths;
    print!(
        "{:7} {from:2} to {to:2} {:8} {:7} {:8} {:8}",
        case.records,
        leaves(&refined.old),
        refined.gray(),
        leaves(&refined.new),
        refined.cubes,
    );
    let times = refined.times(case, to);
    for Times { median, .. } in &times {
        print!(" {:8.3}", 1000.0 * median.as_secs_f64());
    }
    let [build, refine, plain_build, plain_refine] = &times;
    for (one, other) in [
        (build, refine),
        (plain_build, plain_refine),
        (plain_refine, refine),
    ] {
        let [median, least] = one.ratios(other);
        print!(" {median:6.2} ({least:4.2})");
    }
    println!();
}

fn table(what: &str, cases: &[Case], steps: &[[u8; 2]]) {
    println!("{what}");
    println!("                    old map          | new map  cubes to |    library      |   carrying down |      refine over build      | library over");
    println!("records depths   leaves    gray |   leaves   refine |   build  refine |   build  refine |      library       carrying | carrying, refine");
    for &depths in steps {
        cases.iter().for_each(|case| row(case, depths));
    }
}

pub fn speed() {
    println!("refining: milliseconds of processor time, median of {RUNS} runs, and ratios by the medians (by the least)");
    let sizes = [50, 150, 256];
    let deep = [[5, 7], [7, 9]];
    table("corridors", &sheets::corridors(), &deep);
    table("vaults", &sheets::vaulted(), &[[3, 5], [5, 7]]);
    let rooms = sizes.map(|records| buildings::rooms(records, 9));
    table("rooms", &rooms, &deep);
    let towers = sizes.map(|records| buildings::tower(records, 9));
    table("towers", &towers, &deep);
}

/// The most stack that refining to depth 10 uses, over maps of each depth.
pub fn stack_used() -> usize {
    let case = sheets::point();
    let used = |from| {
        let Refined { old, new, .. } = Refined::of(&case, [from, 10]);
        let mut out = vec![0; new.len()];
        stack::used(|| _ = black_box(library::refine(&case.sheet, &old, 10, &mut out)))
    };
    (0..=10).map(used).max().unwrap()
}
