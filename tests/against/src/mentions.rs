//! Rooms in which a face is mentioned more than once.

use crate::rooms::{boxed, half_space, Drawing, Shape};
use paper::sheet::Record::*;

pub const SHAPES: [(&str, Shape); 4] = [
    ("room: a face twice", face_twice),
    ("room: faces in both halves of an L", in_both_halves),
    ("room: divided by a face", divided),
    ("room: a few faces, often mentioned", often),
];

/// A face or its complement, with one of the two, or with a second face over the same operand.
fn face_twice(drawing: &mut Drawing) -> usize {
    let face = any_face(drawing);
    let again = if drawing.random.once_in(3) {
        drawing.maker.again(face)
    } else {
        face
    };
    let [p, q] = [face, again].map(|face| either_side(drawing, face));
    joined(drawing, p, q)
}

/// A face or its complement.
fn either_side(drawing: &mut Drawing, face: usize) -> usize {
    if drawing.random.once_in(2) {
        return face;
    }
    drawing.maker.add(Complement(face))
}

/// Two boxes with a common corner, each with all its walls, floor and ceiling, as draughting tools write them.
fn in_both_halves(drawing: &mut Drawing) -> usize {
    drawing.maker.share = true;
    let [x, y, z] = [0, 1, 2].map(|axis| drawing.stretch(axis));
    let (wide, long) = (drawing.size(), drawing.size());
    let plans = [([x[0], x[1] + wide], y), (x, [y[0], y[1] + long])];
    let [p, q] = plans.map(|(x, y)| {
        let floor_plan = drawing.maker.rectangle(x, y);
        let heights = drawing.maker.between(2, z[0], z[1]);
        drawing.maker.add(Both(floor_plan, heights))
    });
    drawing.maker.add(Either(p, q))
}

/// A room in two parts, of which one ends at a face and the other begins there, as its complement.
fn divided(drawing: &mut Drawing) -> usize {
    let face = any_face(drawing);
    let other_side = drawing.maker.add(Complement(face));
    let [p, q] = [face, other_side].map(|side| {
        let room = boxed(drawing);
        joined(drawing, room, side)
    });
    joined(drawing, p, q)
}

/// Both, either and complement, up to five deep, over a few faces of which two may have one operand.
fn often(drawing: &mut Drawing) -> usize {
    let count = drawing.random.between(1, 3);
    let mut faces: Vec<usize> = (0..count).map(|_| any_face(drawing)).collect();
    if drawing.random.once_in(3) {
        faces.push(drawing.maker.again(faces[0]));
    }
    let depth = drawing.random.between(1, 5);
    tree(drawing, &faces, depth)
}

fn tree(drawing: &mut Drawing, faces: &[usize], depth: i64) -> usize {
    if depth == 0 {
        let face = drawing.random.pick(faces);
        return either_side(drawing, face);
    }
    let p = tree(drawing, faces, depth - 1);
    if drawing.random.once_in(4) {
        return drawing.maker.add(Complement(p));
    }
    let less = drawing.random.between(0, depth - 1);
    let q = tree(drawing, faces, less);
    joined(drawing, p, q)
}

/// Both or either of two records, in either order.
pub fn joined(drawing: &mut Drawing, p: usize, q: usize) -> usize {
    drawing.maker.add(match drawing.random.below(4) {
        0 => Both(p, q),
        1 => Both(q, p),
        2 => Either(p, q),
        _ => Either(q, p),
    })
}

/// A plane across an axis, a slanted one, or a sphere.
fn any_face(drawing: &mut Drawing) -> usize {
    match drawing.random.below(3) {
        0 => {
            let axis = drawing.random.below(3);
            let at = drawing.along(axis);
            let (along, limit) = (drawing.maker.axis(axis), drawing.maker.constant(at));
            drawing.maker.at_most(along, limit)
        }
        1 => half_space(drawing),
        _ => {
            let (centre, radius) = (drawing.centre(), drawing.size());
            drawing.maker.round(&centre, radius)
        }
    }
}
