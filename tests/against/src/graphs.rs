//! Random graphs of records: all kinds, records that nothing uses, operands that several share.

use crate::plan::{self, Plan};
use crate::random::Random;
use paper::bounds;
use paper::root::Root;
use paper::sheet::{
    Record::{self, *},
    Sheet, Sort, MOST_RECORDS,
};

/// A graph under construction, with its root.
struct Graph<'a> {
    random: &'a mut Random,
    sheet: Sheet,
    root: Root,
    /// Whether a record whose bounds pass 2^60 is left out.
    tame: bool,
}

pub fn tame(random: &mut Random) -> Plan {
    graph(random, "graph: in limits", true)
}

/// A graph that may pass 2^60 anywhere.
pub fn wild(random: &mut Random) -> Plan {
    graph(random, "graph: of any numbers", false)
}

fn graph(random: &mut Random, label: &'static str, tame: bool) -> Plan {
    let size = match random.below(8) {
        0..=2 => random.between(2, 8),
        3..=5 => random.between(9, 40),
        6 => random.between(41, 256),
        _ => random.between(250, 256),
    };
    let k = random.between(0, 16) as u8;
    let root = plan::root(random, k);
    let sheet = Sheet {
        version: plan::version(random),
        records: vec![X],
    };
    let mut graph = Graph {
        random,
        sheet,
        root,
        tame,
    };
    graph.grow(size as usize);
    let Sheet { version, records } = graph.sheet;
    Plan {
        label,
        version,
        records,
        root,
    }
}

impl Graph<'_> {
    /// Grows to `size` records, the last of them logical.
    fn grow(&mut self, size: usize) {
        while self.sheet.records.len() + 1 < size {
            let room_for_aim = self.sheet.records.len() + 4 < size;
            if room_for_aim && self.random.once_in(8) {
                self.add_aimed_face();
            } else {
                let record = self.any();
                self.add(record);
            }
        }
        let solid = match self.random.below(6) {
            0 => Face(self.operand(Sort::Arithmetic)),
            _ => self.any_logical(),
        };
        self.sheet.records.push(solid);
        assert!(self.sheet.records.len() <= MOST_RECORDS);
    }

    fn add(&mut self, record: Record) {
        self.sheet.records.push(record);
        if self.tame && bounds::within_limit(&self.sheet, &self.root).is_err() {
            self.sheet.records.pop();
        }
    }

    fn any(&mut self) -> Record {
        match self.random.below(20) {
            0..=2 => Constant(constant(self.random, &self.root)),
            3 => X,
            4 => Y,
            5 => Z,
            6..=8 => Sum(
                self.operand(Sort::Arithmetic),
                self.operand(Sort::Arithmetic),
            ),
            9..=10 => Difference(
                self.operand(Sort::Arithmetic),
                self.operand(Sort::Arithmetic),
            ),
            11..=12 => Product(
                self.operand(Sort::Arithmetic),
                self.operand(Sort::Arithmetic),
            ),
            13 => Square(self.operand(Sort::Arithmetic)),
            14..=16 => Face(self.operand(Sort::Arithmetic)),
            _ => self.any_logical(),
        }
    }

    /// Both, either or a complement; or a face, if there is no logical record yet.
    fn any_logical(&mut self) -> Record {
        if self.of_sort(Sort::Logical).is_empty() {
            return Face(self.operand(Sort::Arithmetic));
        }
        let p = self.operand(Sort::Logical);
        let q = self.beside(p);
        match self.random.below(10) {
            0 | 1 => Both(p, q),
            2 | 3 => Both(q, p),
            4 | 5 => Either(p, q),
            6 | 7 => Either(q, p),
            _ => Complement(p),
        }
    }

    /// A logical record to join with another: any, or sometimes the same, or the one whose complement that is.
    fn beside(&mut self, p: usize) -> usize {
        match (self.random.below(8), &self.sheet.records[p]) {
            (0, _) => p,
            (1 | 2, Complement(turned)) => *turned,
            _ => self.operand(Sort::Logical),
        }
    }

    fn of_sort(&self, sort: Sort) -> Vec<usize> {
        let numbered = self.sheet.records.iter().enumerate();
        let of_sort = numbered.filter(|(_, record)| record.sort() == sort);
        of_sort.map(|(number, _)| number).collect()
    }

    /// A record of a sort, half the time one of the latest.
    fn operand(&mut self, sort: Sort) -> usize {
        let all = self.of_sort(sort);
        let from = if self.random.once_in(2) {
            all.len().saturating_sub(5)
        } else {
            0
        };
        self.random.pick(&all[from..])
    }

    /// A face that crosses the root: of an operand minus a constant between its bounds.
    fn add_aimed_face(&mut self) {
        let operand = self.operand(Sort::Arithmetic);
        if bounds::within_limit(&self.sheet, &self.root).is_err() {
            return;
        }
        let all = bounds::over(&self.sheet, &self.root.cube());
        let bounds = all[operand].expect("it is arithmetic");
        let wanted = self.random.between(bounds.low as i64, bounds.high as i64);
        let Ok(aim) = i32::try_from(wanted) else {
            return;
        };
        let next = self.sheet.records.len();
        self.sheet.records.push(Constant(aim));
        let (a, b) = if self.random.once_in(2) {
            (operand, next)
        } else {
            (next, operand)
        };
        self.add(Difference(a, b));
        if self.sheet.records.len() == next + 2 {
            self.sheet.records.push(Face(next + 1));
        }
    }
}

/// A constant: small, of the root's size, at or next to a power of two, an extreme of 32 bits, or any.
pub fn constant(random: &mut Random, root: &Root) -> i32 {
    match random.below(10) {
        0..=3 => random.between(-9, 9) as i32,
        4 | 5 => {
            root.low[random.below(3)].saturating_add(random.between(0, 1 << root.k.min(16)) as i32)
        }
        6 => {
            let power = 1i64 << random.between(0, 31);
            let near = power + random.between(-1, 1);
            let signed = if random.once_in(2) { near } else { -near };
            signed.clamp(i64::from(i32::MIN), i64::from(i32::MAX)) as i32
        }
        7 => random.pick(&[i32::MIN, i32::MIN + 1, i32::MAX - 1, i32::MAX]),
        _ => random.word() as i32,
    }
}
