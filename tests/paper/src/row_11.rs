//! Row 11 of document 01's table, which request 2026-11 drops: "build: a record's bounds over a smaller cube pass
//! 2^60", with "the first such record of the first such cube, a cube before its children", whose number also says
//! which end, as in reply 7. It comes after 7 and before 8. No input reaches it, since a smaller cube's bounds lie
//! inside the root's; so building by the table with the row must give the same replies.

use crate::bounds::{self, Past};
use crate::build::map_by;
use crate::colour::{self, GRAY};
use crate::root::{Cube, Root};
use crate::sheet::{self, Sheet};
use crate::{reply, Refusal};

pub const CODE: u32 = 11;

/// The number of smaller cubes that the row was tested in, and of those in which an end of bounds is at the limit or
/// past it.
#[derive(Clone, Copy, Debug, Default, PartialEq, Eq)]
pub struct Tested {
    pub cubes: u64,
    pub at_limit: u64,
}

/// The map of a sheet by the table with the row, and what the row was tested on. The paper's limit over smaller cubes
/// is 2^60; a test can take a lower one, to see the row refuse.
pub fn map_of(limit: i128, sheet: &[u8], root: &Root) -> (Result<Vec<u8>, Refusal>, Tested) {
    let mut tested = Tested::default();
    let map = sheet::read(sheet).and_then(|sheet| {
        let map = map_by(&colour::colour, &sheet, root)?;
        let mut row = Row {
            limit,
            sheet: &sheet,
            d: root.d,
            tested: &mut tested,
        };
        match row.below(&root.cube()) {
            Some(past) => Err(reply(CODE, past.number())),
            None => Ok(map),
        }
    });
    (map, tested)
}

struct Row<'a> {
    limit: i128,
    sheet: &'a Sheet,
    d: u8,
    tested: &'a mut Tested,
}

impl Row<'_> {
    /// The first such record of the first such cube below this one, a cube before its children.
    fn below(&mut self, cube: &Cube) -> Option<Past> {
        let is_split = cube.level < self.d && colour::colour(self.sheet, cube).class == GRAY;
        if !is_split {
            return None;
        }
        let mut children = cube.children().into_iter();
        children.find_map(|child| self.over(&child).or_else(|| self.below(&child)))
    }

    /// The first such record of a cube.
    fn over(&mut self, cube: &Cube) -> Option<Past> {
        let past = |limit| bounds::first_past(limit, self.sheet, cube);
        self.tested.cubes += 1;
        self.tested.at_limit += u64::from(past(self.limit - 1).is_some());
        past(self.limit)
    }
}

#[cfg(test)]
mod tests {
    use super::*;
    use crate::bounds::FURTHEST;
    use crate::build;
    use crate::sheet::{
        Record::{self, *},
        Version::One,
        VERSIONS,
    };

    const ROOT: Root = Root {
        low: [0, 0, 0],
        k: 2,
        d: 2,
    };

    fn tested(cubes: u64, at_limit: u64) -> Tested {
        Tested { cubes, at_limit }
    }

    /// The row refuses with this number.
    fn refused(limit: i128, records: &[Record], number: usize) {
        let map = map_of(limit, &sheet::write(One, records), &ROOT).0;
        assert_eq!(map, Err(reply(CODE, number)));
    }

    /// x at most 2 and y at most 2, with y first.
    const STEP: [Record; 8] = [
        Y,
        X,
        Constant(2),
        Difference(1, 2),
        Difference(0, 2),
        Face(3),
        Face(4),
        Both(5, 6),
    ];

    #[test]
    fn the_map_is_the_same() {
        for version in VERSIONS {
            let sheet = sheet::write(version, &STEP);
            let map = build::map_of(&sheet, &ROOT);
            assert_eq!(map_of(FURTHEST, &sheet, &ROOT), (map, tested(24, 0)));
        }
    }

    #[test]
    fn the_first_cube_decides() {
        // x reaches 4 in child 1, y in child 2. It is the high end of record 1.
        refused(3, &STEP, 3);
    }

    #[test]
    fn a_cube_comes_before_its_children() {
        // Over child 0 the square reaches 4. Over the first child of child 0 it does not, and only the 9 is past 3.
        let records = [X, Square(0), Constant(9), Constant(1), Y];
        let faces = [Difference(0, 3), Difference(4, 3), Face(5), Face(6)];
        refused(3, &[&records[..], &faces, &[Both(7, 8)]].concat(), 3);
        // With a constant in place of the square, the 9 is the first: it is past 3 at its low end too.
        let records = [X, Constant(0), Constant(9), Constant(1), Y];
        refused(3, &[&records[..], &faces, &[Both(7, 8)]].concat(), 4);
    }

    /// The cube of x, and a solid that splits the root; x reaches 2^20 in four of its children.
    #[test]
    fn bounds_at_the_limit_are_accepted() {
        let cubed = [X, Square(0), Product(1, 0), Y];
        let planes = [Constant((1 << 20) - 1), Difference(0, 4), Face(5), Face(3)];
        let sheet = sheet::write(One, &[&cubed[..], &planes, &[Both(6, 7)]].concat());
        let root = Root {
            low: [(1 << 20) - 2, -1, 0],
            k: 1,
            d: 1,
        };
        let map = build::map_of(&sheet, &root);
        assert_eq!(map_of(FURTHEST, &sheet, &root), (map, tested(8, 4)));
        let lower = map_of(FURTHEST - 1, &sheet, &root);
        assert_eq!(lower, (Err(reply(CODE, 5)), tested(2, 1)));
    }

    #[test]
    fn the_root_comes_first() {
        let sheet = sheet::write(One, &[Constant(i32::MIN), Square(0), Face(1)]);
        let refused = (Err(reply(7, 2)), tested(0, 0));
        assert_eq!(map_of(0, &sheet, &ROOT), refused);
    }
}
