//! Demand 3 from outside: points of fractions against the leaves of maps, and white leaves against black ones, in one
//! map and in two maps of one sheet.

use crate::case::{hex, Build, Case};
use crate::plan::{self, Plan};
use crate::random::Random;
use crate::server::Server;
use crate::{graphs, rooms, zeros};
use paper::build::Colouring;
use paper::colour::{BLACK, TERMINAL, TERMINAL_COMPLEMENT, WHITE};
use paper::fractions::{Point, Values};
use paper::map::{self, Leaf, HEADER, LEAF};
use paper::root::{Cube, Root};
use paper::sheet::{Record::*, Sheet, Version};
use paper::Refusal;

/// A map that was built: its bytes, and its leaves with their cubes.
pub struct Built {
    pub bytes: Vec<u8>,
    pub root: Root,
    pub leaves: Vec<(Cube, Leaf)>,
}

impl Built {
    /// The map of these bytes, if it opens for the sheet.
    pub fn read(bytes: Vec<u8>, sheet: &Sheet) -> Result<Built, Refusal> {
        let opened = map::read_for(&bytes, sheet)?;
        Ok(Built {
            root: opened.root,
            leaves: opened.cubes().collect(),
            bytes,
        })
    }

    /// Turns over a leaf: white to black, black to white, a face to its complement. Returns its cube; None if the leaf
    /// is gray.
    pub fn turn_over(&mut self, random: &mut Random) -> Option<Cube> {
        let at = random.below(self.leaves.len());
        let (cube, leaf) = &mut self.leaves[at];
        let turned = [BLACK, WHITE, TERMINAL_COMPLEMENT, TERMINAL];
        leaf.colour.class = *turned.get(usize::from(leaf.colour.class))?;
        self.bytes[HEADER + LEAF * at + 1] = leaf.colour.class;
        Some(*cube)
    }

    /// Points of the root and of some leaves.
    pub fn points(&self, random: &mut Random) -> Vec<Point> {
        let mut points = points_of(&self.root.cube(), random);
        for _ in 0..LEAVES_TRIED {
            let (cube, _) = self.leaves[random.below(self.leaves.len())];
            points.extend(points_of(&cube, random));
        }
        points
    }
}

/// How much was tested.
#[derive(Default)]
pub struct Counts {
    /// By version of the sheet.
    pub maps: [u64; 2],
    pub leaves: u64,
    pub points: u64,
    /// Points at which a face of the solid is 0, by version of the sheet.
    pub on_faces: [u64; 2],
    /// Pairs of a point and a closed leaf that holds it, by class.
    pub by_class: [u64; 5],
    /// Pairs of a white and a black leaf, of one map and of two.
    pub pairs: u64,
    pub pairs_of_two_maps: u64,
    /// Pairs of roots of one sheet: overlapping, side by side, apart.
    pub roots: [u64; 3],
    /// Pairs of roots of which neither is a cube of the other's grid.
    pub not_aligned: u64,
}

/// The place of a version among both.
pub fn place(version: Version) -> usize {
    version as usize - 1
}

/// The number of leaves per map from which points are taken.
const LEAVES_TRIED: usize = 8;

/// High powers at points of fractions would need numbers with many thousands of digits.
const MOST_DEGREE: u32 = 24;

/// A sheet whose values at points of fractions have small powers: a room or a graph.
pub fn sheet(random: &mut Random) -> Plan {
    loop {
        let plan = match random.below(3) {
            0 => graphs::tame(random),
            _ => rooms::room(random),
        };
        if degree(&plan.sheet()) <= MOST_DEGREE {
            return plan;
        }
    }
}

/// The greatest power of a point's denominator in the value of any record.
fn degree(sheet: &Sheet) -> u32 {
    let mut degrees: Vec<u32> = Vec::new();
    for record in &sheet.records {
        let degree = match *record {
            X | Y | Z => 1,
            Sum(a, b) | Difference(a, b) => degrees[a].max(degrees[b]),
            Product(a, b) => degrees[a].saturating_add(degrees[b]),
            Square(a) => degrees[a].saturating_mul(2),
            _ => 0,
        };
        degrees.push(degree);
    }
    degrees.into_iter().fold(0, u32::max)
}

/// The library's map, of at most so many leaves, opened; None if the library refuses.
pub fn built(plan: &Plan, leaves: usize, server: &mut Server) -> Result<Option<Built>, String> {
    let case = Case::Build(Build {
        placing: 0,
        sheet: plan.bytes(),
        root: plan.root,
        out_len: HEADER + LEAF * leaves,
        out_seed: 1,
    });
    let outcome = server.ask(&case)?;
    if outcome.replies[0].code != 0 {
        return Ok(None);
    }
    let length = outcome.replies[0].number as usize;
    let map = outcome.out.get(..length).unwrap_or_default();
    let built = Built::read(map.to_vec(), &plan.sheet()).map_err(|refusal| {
        let request = hex(&case.request());
        format!("a map that was built does not open: {refusal:?}; replay {request}")
    })?;
    Ok(Some(built))
}

/// Another root for the same sheet: moved by any number of units or by exactly its side, and of any size.
pub fn other_root(root: &Root, random: &mut Random) -> Root {
    loop {
        let mut other = *root;
        if random.once_in(2) {
            other.k = random.between(0, 16).min(i64::from(root.k) + 1) as u8;
        }
        let side = 1i64 << root.k;
        let just = random.below(4);
        for axis in 0..3 {
            let by = match just {
                0 if axis == 0 => side,
                0 => 0,
                _ => random.between(-side / 2, side / 2),
            };
            other.low[axis] = (i64::from(root.low[axis]) + by) as i32;
        }
        other.d = 0;
        if other.in_limits() {
            return other;
        }
    }
}

/// Counts how two roots lie relative to each other.
pub fn count_roots(a: &Cube, b: &Cube, counts: &mut Counts) {
    let overlaps = (0..3).all(|axis| a.low[axis] < b.high(axis) && b.low[axis] < a.high(axis));
    let how = match (overlaps, a.touches(b)) {
        (true, _) => 0,
        (false, true) => 1,
        (false, false) => 2,
    };
    counts.roots[how] += 1;
    let grid = a.side.min(b.side);
    let aligned = (0..3).all(|axis| (a.low[axis] - b.low[axis]) % grid == 0);
    counts.not_aligned += u64::from(!aligned);
}

/// Whether the demand holds of a point in a closed leaf: white outside, black inside, terminal as its face.
fn agrees(leaf: &Leaf, at: &Values) -> bool {
    let face = || at.holds(usize::from(leaf.colour.face));
    match leaf.colour.class {
        WHITE => !at.is_inside(),
        BLACK => at.is_inside(),
        TERMINAL => at.is_inside() == face(),
        TERMINAL_COMPLEMENT => at.is_inside() != face(),
        _ => true,
    }
}

/// A point and a closed leaf that holds it, but disagrees with it.
pub fn wrong_leaf(
    sheet: &Sheet,
    leaves: &[(Cube, Leaf)],
    points: &[Point],
    counts: &mut Counts,
) -> Option<(Point, Cube, Leaf)> {
    for point in points {
        let at = Values::at(sheet, point);
        counts.points += 1;
        counts.on_faces[place(sheet.version)] += u64::from(zeros::is_among(sheet, &at));
        let around = leaves.iter().filter(|(cube, _)| point.is_in_closed(cube));
        for (cube, leaf) in around {
            counts.by_class[usize::from(leaf.colour.class)] += 1;
            if !agrees(leaf, &at) {
                return Some((*point, *cube, *leaf));
            }
        }
    }
    None
}

/// A white and a black leaf that share even a corner.
pub fn touching(
    some: &[(Cube, Leaf)],
    others: &[(Cube, Leaf)],
    pairs: &mut u64,
) -> Option<(Cube, Cube)> {
    let (whites, blacks) = (of_class(some, WHITE), of_class(others, BLACK));
    *pairs += whites.len() as u64 * blacks.len() as u64;
    let touched = |white: &Cube| blacks.iter().find(|black| black.touches(white)).copied();
    whites
        .iter()
        .find_map(|white| Some((*white, touched(white)?)))
}

pub fn of_class(leaves: &[(Cube, Leaf)], class: u8) -> Vec<Cube> {
    let of_class = leaves.iter().filter(|(_, leaf)| leaf.colour.class == class);
    of_class.map(|(cube, _)| *cube).collect()
}

/// Points of a closed cube: its centre, corners, midpoints of edges and sides, and random ones.
pub fn points_of(cube: &Cube, random: &mut Random) -> Vec<Point> {
    let mut points = vec![halves(cube, [1, 1, 1])];
    for _ in 0..3 {
        points.push(halves(cube, [0, 1, 2].map(|_| random.pick(&[0, 2]))));
        points.push(halves(cube, [0, 1, 2].map(|_| random.between(0, 2))));
        points.push(fraction(cube, random));
    }
    points
}

/// The point `steps` half sides from the low corner.
fn halves(cube: &Cube, steps: [i64; 3]) -> Point {
    Point {
        numerators: [0, 1, 2].map(|axis| 2 * cube.low[axis] + steps[axis] * cube.side),
        denominator: 2,
    }
}

/// Any point of the closed cube, often on a side, over a small or a large denominator.
fn fraction(cube: &Cube, random: &mut Random) -> Point {
    let any = random.between(1, (1 << 31) - 1);
    let denominator = random.pick(&[1, 2, 3, 7, 10, 256, 1_000_003, (1 << 31) - 1, any]);
    let numerators = [0, 1, 2].map(|axis| {
        let (low, width) = (cube.low[axis] * denominator, cube.side * denominator);
        low + match random.below(8) {
            0 => 0,
            1 => width,
            2 => 1,
            3 => width - 1,
            _ => random.between(0, width),
        }
    });
    Point {
        numerators,
        denominator,
    }
}

/// Sets a plan's depth, and returns the number of leaves of its map by a colouring.
pub fn depth(plan: &mut Plan, colouring: &Colouring, random: &mut Random) -> usize {
    let most = match random.below(20) {
        0 => 12_000,
        1..=5 => 2_000,
        _ => 300,
    };
    let wanted = plan.root.k.min(10);
    let (d, leaves) = plan::deepest_by(colouring, &plan.sheet(), &plan.root, wanted, most);
    plan.root.d = d;
    leaves
}
