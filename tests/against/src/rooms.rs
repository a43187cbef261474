//! Realistic rooms.

use crate::maker::Maker;
use crate::mentions;
use crate::plan::{self, Plan};
use crate::random::Random;
use paper::root::Root;
use paper::sheet::Record::*;

/// A room under construction, with its root.
pub struct Drawing<'a> {
    pub random: &'a mut Random,
    pub maker: Maker,
    pub root: Root,
}

/// Adds a shape to a drawing, and returns its record's number.
pub type Shape = fn(&mut Drawing) -> usize;

const ON_PLANES: (&str, Shape) = ("room: walls on planes of cubes", on_planes);

const SHAPES: [(&str, Shape); 11] = [
    ("room: box", boxed),
    ("room: cylinder", cylinder),
    ("room: sphere", sphere),
    ("room: torus", torus),
    ("room: L shape", l_shape),
    ("room: round bay", round_bay),
    ("room: wall one unit thin", thin_wall),
    ("room: less a column", column),
    ("room: slanted faces", slanted),
    ("room: complement of a complement", twice_complement),
    ON_PLANES,
];

pub fn room(random: &mut Random) -> Plan {
    if random.once_in(4) {
        return mentioning(random);
    }
    of_shapes(random, &SHAPES)
}

/// A room in which a face is mentioned more than once.
pub fn mentioning(random: &mut Random) -> Plan {
    of_shapes(random, &mentions::SHAPES)
}

/// A room whose walls lie on planes of cubes.
pub fn planar(random: &mut Random) -> Plan {
    of_shapes(random, &[ON_PLANES])
}

fn of_shapes(random: &mut Random, shapes: &[(&'static str, Shape)]) -> Plan {
    let k = random.between(2, 16).min(random.between(4, 16)) as u8;
    let k = if random.once_in(12) { k % 3 } else { k };
    let root = plan::root(random, k);
    let (label, shape) = random.pick(shapes);
    drawn(random, root, label, shape)
}

/// The largest maps, in turn: of solids that are gray in half of the root, all over a sphere, and
/// everywhere.
pub fn largest(turn: u64, random: &mut Random) -> Plan {
    let root = plan::root(random, 12);
    let shapes: [Shape; 3] = [gray_half, gray_sphere, gray];
    let shape = shapes[(turn % 3) as usize];
    drawn(random, root, "room: of the largest maps", shape)
}

/// The bounds of x - x contain 0 in every cube, and two faces over it are gray.
fn gray(drawing: &mut Drawing) -> usize {
    let x = drawing.maker.axis(0);
    let vague = drawing.maker.at_most(x, x);
    let again = drawing.maker.again(vague);
    drawing.maker.add(Either(vague, again))
}

fn gray_half(drawing: &mut Drawing) -> usize {
    let middle = i64::from(drawing.root.low[0]) + (1 << drawing.root.k) / 2;
    let (x, middle) = (drawing.maker.axis(0), drawing.maker.constant(middle));
    let half = drawing.maker.at_most(x, middle);
    let gray = gray(drawing);
    drawing.maker.add(Both(gray, half))
}

fn gray_sphere(drawing: &mut Drawing) -> usize {
    let half = (1 << drawing.root.k) / 2;
    let centre = drawing.root.low.map(|low| i64::from(low) + half);
    let face = drawing.maker.round(&centre, half - half / 8);
    let again = drawing.maker.again(face);
    drawing.maker.add(Both(face, again))
}

/// A plan with a shape for its solid.
pub fn drawn(random: &mut Random, root: Root, label: &'static str, shape: Shape) -> Plan {
    let share = !random.once_in(3);
    let version = plan::version(random);
    let mut drawing = Drawing {
        random,
        maker: Maker {
            share,
            ..Maker::default()
        },
        root,
    };
    let solid = shape(&mut drawing);
    let records = drawing.maker.with_solid(solid);
    Plan {
        label,
        version,
        records,
        root,
    }
}

impl Drawing<'_> {
    /// A size up to the root's side, usually small.
    pub fn size(&mut self) -> i64 {
        let most = self.random.between(1, 1 << self.root.k);
        self.random.between(1, most)
    }

    /// A coordinate in the root or near it.
    pub fn along(&mut self, axis: usize) -> i64 {
        let side = 1i64 << self.root.k;
        let low = i64::from(self.root.low[axis]);
        low + self.random.between(-side / 8, side)
    }

    pub fn centre(&mut self) -> [i64; 3] {
        [0, 1, 2].map(|axis| self.along(axis))
    }

    /// Two coordinates in rising order.
    pub fn stretch(&mut self, axis: usize) -> [i64; 2] {
        let low = self.along(axis);
        [low, low + self.size()]
    }

    /// The space over a floor plan, from floor to ceiling.
    pub fn storey(&mut self, floor_plan: usize) -> usize {
        let z = self.stretch(2);
        let heights = self.maker.between(2, z[0], z[1]);
        self.maker.add(Both(floor_plan, heights))
    }
}

pub fn boxed(drawing: &mut Drawing) -> usize {
    let (x, y) = (drawing.stretch(0), drawing.stretch(1));
    let floor_plan = drawing.maker.rectangle(x, y);
    drawing.storey(floor_plan)
}

fn cylinder(drawing: &mut Drawing) -> usize {
    let (centre, radius) = (drawing.centre(), drawing.size());
    let floor_plan = drawing.maker.round(&centre[..2], radius);
    drawing.storey(floor_plan)
}

fn sphere(drawing: &mut Drawing) -> usize {
    let (centre, radius) = (drawing.centre(), drawing.size());
    let ball = drawing.maker.round(&centre, radius);
    if drawing.random.once_in(2) {
        return ball;
    }
    drawing.storey(ball)
}

fn torus(drawing: &mut Drawing) -> usize {
    let centre = drawing.centre();
    let large = drawing.size();
    let small = drawing.random.between(0, large);
    let ring = drawing.maker.torus(centre, large, small);
    if drawing.random.once_in(4) {
        return ring;
    }
    let cut = boxed(drawing);
    drawing.maker.add(Both(ring, cut))
}

/// Two rectangles with a common corner, which share two walls.
fn l_shape(drawing: &mut Drawing) -> usize {
    let (x, y) = (drawing.stretch(0), drawing.stretch(1));
    let (wide, long) = (drawing.size(), drawing.size());
    let parlour = drawing.maker.rectangle([x[0], x[1] + wide], y);
    let bedroom = drawing.maker.rectangle(x, [y[0], y[1] + long]);
    let floor_plan = drawing.maker.add(Either(parlour, bedroom));
    drawing.storey(floor_plan)
}

/// A rectangle with a half-round bay on a long wall.
fn round_bay(drawing: &mut Drawing) -> usize {
    let (x, y) = (drawing.stretch(0), drawing.stretch(1));
    let middle = [(x[0] + x[1]) / 2, y[1]];
    let radius = ((x[1] - x[0]) / 3).max(1);
    let plain = drawing.maker.rectangle(x, y);
    let bay = drawing.maker.round(&middle, radius);
    let floor_plan = drawing.maker.add(Either(plain, bay));
    drawing.storey(floor_plan)
}

/// Two rooms with a wall one unit thick between them, across x or y.
fn thin_wall(drawing: &mut Drawing) -> usize {
    let across = drawing.random.below(2);
    let wall = drawing.along(across);
    let (before, after) = (drawing.size(), drawing.size());
    let left = drawing.maker.between(across, wall - before, wall);
    let right = drawing.maker.between(across, wall + 1, wall + 1 + after);
    let rooms = drawing.maker.add(Either(left, right));
    let other = drawing.stretch(1 - across);
    let depth = drawing.maker.between(1 - across, other[0], other[1]);
    let floor_plan = drawing.maker.add(Both(rooms, depth));
    drawing.storey(floor_plan)
}

fn column(drawing: &mut Drawing) -> usize {
    let room = boxed(drawing);
    let (centre, radius) = (drawing.centre(), drawing.size());
    let column = drawing.maker.round(&centre[..2], 1 + radius / 4);
    let around = drawing.maker.add(Complement(column));
    drawing.maker.add(Both(room, around))
}

/// Two to four half-spaces a x + b y + c z at most e, through points near the root.
fn slanted(drawing: &mut Drawing) -> usize {
    let mut solid = half_space(drawing);
    for _ in 0..drawing.random.between(1, 3) {
        let other = half_space(drawing);
        let joined = drawing.random.once_in(2);
        solid = drawing.maker.add(if joined {
            Both(solid, other)
        } else {
            Either(solid, other)
        });
    }
    solid
}

pub fn half_space(drawing: &mut Drawing) -> usize {
    let through = drawing.centre();
    let mut limit = 0;
    let mut total = drawing.maker.constant(0);
    for (axis, at) in through.into_iter().enumerate() {
        let factor = drawing.random.between(-5, 5);
        limit += factor * at;
        let (by, along) = (drawing.maker.constant(factor), drawing.maker.axis(axis));
        let term = drawing.maker.add(Product(by, along));
        total = drawing.maker.add(Sum(total, term));
    }
    let limit = drawing.maker.constant(limit);
    drawing.maker.at_most(total, limit)
}

/// A box, all but a box, or one box less another. Their walls lie on planes of cubes, so that bounds begin and end at 0.
fn on_planes(drawing: &mut Drawing) -> usize {
    let room = box_on_planes(drawing);
    match drawing.random.below(3) {
        0 => room,
        1 => drawing.maker.add(Complement(room)),
        _ => {
            let other = box_on_planes(drawing);
            let around = drawing.maker.add(Complement(other));
            drawing.maker.add(Both(room, around))
        }
    }
}

fn box_on_planes(drawing: &mut Drawing) -> usize {
    let Root { low, k, .. } = drawing.root;
    let halvings = drawing.random.between(0, k.min(4).into());
    let step = 1i64 << (i64::from(k) - halvings);
    let mut plane = |axis: usize| {
        let steps = drawing.random.between(0, 1 << halvings);
        i64::from(low[axis]) + step * steps
    };
    let [x, y, z] = [0, 1, 2].map(|axis| {
        let (a, b) = (plane(axis), plane(axis));
        [a.min(b), a.max(b)]
    });
    let floor_plan = drawing.maker.rectangle(x, y);
    let heights = drawing.maker.between(2, z[0], z[1]);
    drawing.maker.add(Both(floor_plan, heights))
}

fn twice_complement(drawing: &mut Drawing) -> usize {
    let room = if drawing.random.once_in(2) {
        sphere(drawing)
    } else {
        boxed(drawing)
    };
    let around = drawing.maker.add(Complement(room));
    drawing.maker.add(Complement(around))
}
