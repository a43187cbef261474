//! Trees of both, either and complement over faces that cross the root.

use crate::mentions::joined;
use crate::rooms::Drawing;
use paper::sheet::{Record::*, MOST_RECORDS};

/// Faces through a few points of the root, so that there are cubes that stay gray; sides are taken at random.
pub fn faces(drawing: &mut Drawing, count: i64) -> Vec<usize> {
    faces_along(drawing, count, &[0, 1, 2])
}

/// The same, along some axes alone.
pub fn faces_along(drawing: &mut Drawing, count: i64, axes: &[usize]) -> Vec<usize> {
    let points = [(); 3].map(|_| drawing.centre());
    let points = &points[..drawing.random.between(1, 3) as usize];
    let through = |_| {
        let point = drawing.random.pick(points);
        face_through(drawing, point, axes)
    };
    (0..count).map(through).collect()
}

/// A plane across an axis, mostly; or a slanted one, a pair of planes, or a saddle.
pub fn face_through(drawing: &mut Drawing, point: [i64; 3], axes: &[usize]) -> usize {
    let [a, b] = [(); 2].map(|_| drawing.random.pick(axes));
    let (value, at) = match drawing.random.below(8) {
        0 => {
            let [p, q] = [a, b].map(|axis| drawing.maker.axis(axis));
            (drawing.maker.add(Sum(p, q)), point[a] + point[b])
        }
        1 => {
            let away = drawing.size().min(1_000);
            let offset = offset(drawing, a, point[a] + away);
            (drawing.maker.add(Square(offset)), away * away)
        }
        2 => {
            let [p, q] = [a, b].map(|axis| offset(drawing, axis, point[axis]));
            (drawing.maker.add(Product(p, q)), 0)
        }
        _ => (drawing.maker.axis(a), point[a]),
    };
    let at = drawing.maker.constant(at);
    if drawing.random.once_in(2) {
        return drawing.maker.at_most(value, at);
    }
    drawing.maker.at_most(at, value)
}

/// How far a point is from one along an axis.
pub fn offset(drawing: &mut Drawing, axis: usize, from: i64) -> usize {
    let (along, from) = (drawing.maker.axis(axis), drawing.maker.constant(from));
    drawing.maker.add(Difference(along, from))
}

pub fn turned(drawing: &mut Drawing, p: usize) -> usize {
    drawing.maker.add(Complement(p))
}

/// The number of records that can still be added, less some.
pub fn room(drawing: &Drawing, less: usize) -> i64 {
    (MOST_RECORDS - drawing.maker.records.len() - less) as i64
}

/// A face joined with another, the result with another, and so on, with a complement now and then.
pub fn chained(drawing: &mut Drawing, faces: &[usize], links: i64) -> usize {
    let mut solid = faces[0];
    for _ in 0..links {
        solid = if drawing.random.once_in(6) {
            turned(drawing, solid)
        } else {
            let face = drawing.random.pick(faces);
            joined(drawing, solid, face)
        };
    }
    solid
}

pub fn chain(drawing: &mut Drawing) -> usize {
    let (count, links) = (drawing.random.between(2, 8), drawing.random.between(1, 20));
    let faces = faces(drawing, count);
    chained(drawing, &faces, links)
}

/// Up to 200 links.
pub fn long_chain(drawing: &mut Drawing) -> usize {
    let count = drawing.random.between(4, 12);
    let faces = faces(drawing, count);
    let links = drawing.random.between(40, 200).min(room(drawing, 1));
    chained(drawing, &faces, links)
}

/// Joins neighbours until one is left.
pub fn balanced(drawing: &mut Drawing) -> usize {
    let count = drawing.random.between(4, 20);
    let mut row = faces(drawing, count);
    while row.len() > 1 {
        let pairs = row.chunks(2);
        row = pairs
            .map(|pair| match *pair {
                [p, q] => joined(drawing, p, q),
                _ => turned(drawing, pair[0]),
            })
            .collect();
    }
    row[0]
}

/// Both, a complement, either, a complement, and so on.
pub fn in_turn(drawing: &mut Drawing) -> usize {
    let count = drawing.random.between(3, 12);
    let faces = faces(drawing, count);
    let mut solid = faces[0];
    for link in 0..drawing.random.between(2, 30) {
        let face = drawing.random.pick(&faces);
        let kind = if link % 2 == 0 { Both } else { Either };
        let outer = drawing.maker.add(kind(solid, face));
        solid = turned(drawing, outer);
    }
    solid
}

/// Any two of those before, again and again, and then what some of them are together.
pub fn shared(drawing: &mut Drawing) -> usize {
    let count = drawing.random.between(2, 6);
    let mut all = faces(drawing, count);
    for _ in 0..drawing.random.between(4, 30) {
        let [p, q] = [(); 2].map(|_| drawing.random.pick(&all));
        let p = if drawing.random.once_in(5) {
            turned(drawing, p)
        } else {
            p
        };
        all.push(joined(drawing, p, q));
    }
    let last = all.len() - 1;
    chained(drawing, &all[last / 2..], 4)
}
