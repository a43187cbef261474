//! How the time of building grows with the records and with the depth, for towers.
use crate::buildings::tower;
use crate::builds::Timed;
use crate::sheets::Case;
use crate::turns::{each, RUNS};

fn row(case: &Case) {
    let timed = Timed::of(case);
    print!("{:7} {:5} {:7}", case.records, case.root.d, timed.cubes);
    for times in &timed.times {
        let (a_cube, whole) = (each(times.median, timed.cubes), times.median.as_secs_f64());
        print!(" {a_cube:9.1} {:9.3}", 1000.0 * whole);
    }
    for [ratio, _] in timed.ratios() {
        print!(" {ratio:10.3}");
    }
    println!();
}

fn table(what: &str, cases: impl Iterator<Item = Case>) {
    println!("{what}");
    println!("                      |     baseline      |     carrying      |      library      |    library over");
    println!("records depth   cubes |  a cube     whole |  a cube     whole |  a cube     whole | baseline   carrying");
    cases.for_each(|case| row(&case));
}

pub fn tables() {
    println!("building towers: processor time per cube, in nanoseconds, and of the whole build, in milliseconds, median of {RUNS} runs");
    let sizes = [16, 32, 64, 128, 256].into_iter();
    table("by records", sizes.map(|records| tower(records, 9)));
    for records in [50, 256] {
        let what = format!("by depth, {records} records");
        table(&what, (4..=10).map(|d| tower(records, d)));
    }
}
