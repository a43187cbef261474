//! The baseline for building: a plain program that evaluates every record at every cube, in one pass, into vectors.
use crate::colour::{colour, over_number, Cube, Interval, State};
use crate::records::{parse, Record, Refusal};

/// Where a map is built: the root's low corner, k and the depth.
#[derive(Clone, Copy)]
pub struct Root {
    pub corner: [i32; 3],
    pub k: u8,
    pub d: u8,
}

impl Root {
    pub fn is_within_limits(&self) -> bool {
        let most = 1 << 20;
        self.k <= 16
            && self.d <= self.k.min(10)
            && self
                .corner
                .iter()
                .all(|&low| low >= -most && i64::from(low) + (1i64 << self.k) <= i64::from(most))
    }

    pub fn cube(&self) -> Cube {
        Cube {
            low: self.corner.map(i64::from),
            side: 1 << self.k,
            level: 0,
        }
    }

    /// The bytes of a map before its leaves, but for its length, which is put in its place at the end.
    pub fn header(&self) -> Vec<u8> {
        let mut map = vec![0, 0, 0, 0, 1];
        map.extend(self.corner.iter().flat_map(|low| low.to_be_bytes()));
        map.extend([self.k, self.d]);
        map
    }
}

/// A build in progress, with vectors that are refilled for each cube.
struct Build<'a> {
    records: &'a [Record],
    d: u8,
    bounds: Vec<Interval>,
    states: Vec<State>,
    map: Vec<u8>,
    cubes: usize,
}

/// Tests the limit for all records over the root; the error is the number of reply 7, for the first record that passes it.
pub fn limited_over_root(records: &[Record], root: &Root) -> Result<(), u64> {
    let mut bounds = vec![Interval::default(); records.len()];
    let mut states = vec![State::default(); records.len()];
    match colour(records, &mut bounds, &mut states, &root.cube()) {
        Ok(_) => Ok(()),
        Err(record) => Err(over_number(records, &bounds, record)),
    }
}

/// Whether a point satisfies a face of the sheet. No record may pass the limit over the root that holds the point.
pub fn satisfies(records: &[Record], face: u8, point: [i32; 3]) -> bool {
    let [x, y, z] = point.map(i64::from);
    let mut values = Vec::with_capacity(records.len());
    for &record in &records[..face as usize] {
        values.push(match record {
            Record::Constant(c) => c,
            Record::X => x,
            Record::Y => y,
            Record::Z => z,
            Record::Sum(a, b) => values[a as usize] + values[b as usize],
            Record::Difference(a, b) => values[a as usize] - values[b as usize],
            Record::Product(a, b) => values[a as usize] * values[b as usize],
            Record::Square(a) => values[a as usize] * values[a as usize],
            // No arithmetic record has a logical one as an operand.
            Record::Face(..) | Record::Both(..) | Record::Either(..) | Record::Complement(_) => 0,
        });
    }
    match records[face as usize] {
        Record::Face(a, below) => values[a as usize] < below.into(),
        _ => false,
    }
}

impl Build<'_> {
    /// Appends the leaves of a cube. The error is the first record that passes the limit, and only the root gives one: a smaller cube's
    /// bounds lie inside the root's.
    fn add(&mut self, cube: Cube) -> Result<(), usize> {
        self.cubes += 1;
        let state = colour(self.records, &mut self.bounds, &mut self.states, &cube)?;
        if state == State::Mixed && cube.level < self.d {
            (0..8).try_for_each(|number| self.add(cube.child(number)))
        } else {
            let [class, face] = state.class();
            self.map.extend([cube.level, class, face]);
            Ok(())
        }
    }
}

/// A zone map, and the number of cubes coloured to build it.
pub struct Map {
    pub bytes: Vec<u8>,
    pub cubes: usize,
}

impl Map {
    /// The map with its length.
    pub fn finished(mut bytes: Vec<u8>, cubes: usize) -> Map {
        let following = bytes.len() as u32 - 4;
        bytes[..4].copy_from_slice(&following.to_be_bytes());
        Map { bytes, cubes }
    }
}

/// The map of a sheet, or the refusal. The vector grows as needed, so there is no reply 8.
pub fn build(sheet: &[u8], root: &Root) -> Result<Map, Refusal> {
    let records = parse(sheet)?;
    if !root.is_within_limits() {
        return Err((6, 0));
    }
    let mut build = Build {
        d: root.d,
        bounds: vec![Interval::default(); records.len()],
        states: vec![State::default(); records.len()],
        records: &records,
        map: root.header(),
        cubes: 0,
    };
    if let Err(record) = build.add(root.cube()) {
        return Err((7, over_number(&records, &build.bounds, record)));
    }
    Ok(Map::finished(build.map, build.cubes))
}
