//! Opening a map and looking a point up, by the library and by the plain program of `scan`.
use crate::baseline::Root;
use crate::sheets::Case;
use crate::turns::{each, interleaved, RUNS};
use crate::{leaves, library, scan, sheets, stack};
use std::hint::black_box;

/// A plain random generator (Knuth's linear congruence), so that every run compares the same points.
struct Numbers(u64);

impl Numbers {
    fn below(&mut self, end: usize) -> usize {
        self.0 = self
            .0
            .wrapping_mul(6364136223846793005)
            .wrapping_add(1442695040888963407);
        (self.0 >> 33) as usize % end
    }
}

/// The library's map of a case.
fn map_of(case: &Case) -> Vec<u8> {
    let Err((8, needed)) = library::build(&case.sheet, &case.root, &mut []) else {
        panic!("the sheet is good, and no map is empty");
    };
    let mut map = vec![0; needed as usize];
    assert_eq!(
        library::build(&case.sheet, &case.root, &mut map),
        Ok(map.len())
    );
    map
}

/// The place of each leaf of a map, and where the last ends.
fn places(map: &[u8]) -> Vec<usize> {
    let d = map[18];
    let mut places = vec![0];
    for leaf in map[19..].chunks(3) {
        places.push(places.last().unwrap() + (1 << (3 * (d - leaf[0]))));
    }
    places
}

/// A point of a random leaf, so that small leaves are hit as often as large ones: on planes of the smallest cubes, next to them, or anywhere.
/// One point in eight lies outside the root, just outside or far away.
fn point(root: &Root, places: &[usize], numbers: &mut Numbers) -> [i32; 3] {
    let leaf = numbers.below(places.len() - 1);
    let place = places[leaf] + numbers.below(places[leaf + 1] - places[leaf]);
    let step = 1 << (root.k - root.d);
    let mut point = [0, 1, 2].map(|axis| {
        let steps: usize = (0..root.d)
            .map(|bit| (place >> (3 * bit) >> axis & 1) << bit)
            .sum();
        let within = [0, step - 1, numbers.below(step)][numbers.below(3)];
        root.corner[axis] + (steps * step + within) as i32
    });
    if numbers.below(8) == 0 {
        let (axis, side) = (numbers.below(3), 1 << root.k);
        let far = [-1, -side, side, side + 1, i32::MIN, i32::MAX][numbers.below(6)];
        point[axis] = root.corner[axis].saturating_add(far);
    }
    point
}

/// A map with a byte changed or a leaf left out, usually with a length that still agrees.
fn damaged(map: &[u8], numbers: &mut Numbers) -> Vec<u8> {
    let mut bytes = map.to_vec();
    let at = match numbers.below(8) {
        0 => numbers.below(19),
        _ => 19 + numbers.below(map.len() - 19),
    };
    match numbers.below(4) {
        0 => {
            let leaf = 19 + (at.max(19) - 19) / 3 * 3;
            bytes.drain(leaf..leaf + 3);
            let following = bytes.len() as u32 - 4;
            bytes[..4].copy_from_slice(&following.to_be_bytes());
        }
        1 => bytes[at] = numbers.below(256) as u8,
        2 => bytes[at] = numbers.below(12) as u8,
        _ => bytes[at] ^= 1 << numbers.below(8),
    }
    bytes
}

/// A sheet with a byte changed.
fn damaged_sheet(sheet: &[u8], numbers: &mut Numbers) -> Vec<u8> {
    let mut bytes = sheet.to_vec();
    bytes[numbers.below(sheet.len())] = numbers.below(20) as u8;
    bytes
}

/// How often each answer and each refusal was returned.
#[derive(Default)]
struct Counts {
    answers: [usize; 3],
    refusals: [usize; 11],
}

impl Counts {
    /// Compares the two answers for a point.
    fn compare(&mut self, sheet: &[u8], map: &[u8], point: [i32; 3]) {
        let answer = library::lookup(sheet, map, point);
        assert_eq!(answer, scan::lookup(sheet, map, point), "{point:?}");
        match answer {
            Ok(answer) => self.answers[answer as usize] += 1,
            Err((code, _)) => self.refusals[code as usize] += 1,
        }
    }

    fn print(&self) {
        let [outside, inside, undecided] = self.answers;
        print!("the same answers: {outside} outside, {inside} inside, {undecided} undecided");
        for (code, count) in self.refusals.iter().enumerate().filter(|(_, &n)| n > 0) {
            print!(", {count} refused by {code}");
        }
        println!();
    }
}

/// Compares the answers for points of a map: fewer points for a larger map, and damaged bytes too for a small one.
fn compare(case: &Case, map: &[u8], counts: &mut Counts) {
    let mut numbers = Numbers(case.records as u64);
    let places = places(map);
    for _ in 0..(100_000_000 / leaves(map)).min(20_000) {
        let point = point(&case.root, &places, &mut numbers);
        counts.compare(&case.sheet, map, point);
        if map.len() < 10_000 {
            counts.compare(&case.sheet, &damaged(map, &mut numbers), point);
            counts.compare(&damaged_sheet(&case.sheet, &mut numbers), map, point);
        }
    }
}

/// Points that are timed, all in the root.
fn timed_points(root: &Root) -> [[i32; 3]; 16] {
    let mut numbers = Numbers(1);
    [(); 16].map(|_| {
        root.corner
            .map(|low| low + numbers.below(1 << root.k) as i32)
    })
}

/// A call that looks up the next of some points each time.
fn in_turn<'a>(
    lookup: impl Fn([i32; 3]) -> Result<u64, (u32, u64)> + 'a,
    points: &'a [[i32; 3]],
) -> impl FnMut() + 'a {
    let mut next = points.iter().cycle();
    move || _ = black_box(lookup(black_box(*next.next().unwrap())))
}

fn row(case: &Case, map: &[u8]) {
    let (sheet, points) = (&case.sheet, timed_points(&case.root));
    let [plain, proved] = interleaved([
        &mut in_turn(|point| scan::lookup(sheet, map, point), &points),
        &mut in_turn(|point| library::lookup(sheet, map, point), &points),
    ]);
    let a_leaf = |time| each(time, leaves(map));
    let ratio = plain.ratios(&proved);
    println!(
        "{:7} {:5} {:7} {:7.3} ({:6.3}) {:7.3} ({:6.3}) {:8.2} ({:5.2})",
        case.records,
        case.root.d,
        leaves(map),
        a_leaf(plain.median),
        a_leaf(plain.least),
        a_leaf(proved.median),
        a_leaf(proved.least),
        ratio[0],
        ratio[1],
    );
}

/// Compares the answers and prints the table of times.
pub fn speed() {
    let with_map = |case| (map_of(&case), case);
    let timed: Vec<_> = sheets::corridors()
        .into_iter()
        .chain(sheets::halls())
        .map(with_map)
        .collect();
    let mut counts = Counts::default();
    for (map, case) in timed.iter().chain(&[with_map(sheets::steep())]) {
        compare(case, map, &mut counts);
    }
    counts.print();
    println!("looking up: nanoseconds of processor time per leaf of the map, median of {RUNS} runs (least)");
    println!("records depth  leaves        plain Rust             library  library / plain Rust");
    for (map, case) in &timed {
        row(case, map);
    }
}

/// The most stack that a lookup uses, over points of leaves of each class.
pub fn stack_used() -> usize {
    let [case, ..] = sheets::corridors();
    let map = map_of(&case);
    let (places, mut numbers) = (places(&map), Numbers(1));
    let points = (0..100).map(|_| point(&case.root, &places, &mut numbers));
    let used = |point| stack::used(|| _ = black_box(library::lookup(&case.sheet, &map, point)));
    points.map(used).max().unwrap()
}
