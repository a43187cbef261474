//! A case: one request to the server, and its outcome. `request` has its bytes.

use paper::map::{self, HEADER};
use paper::root::Root;
use paper::Reply;

/// The ways to place slices, in three bits: whether the sheet's first or last byte lies against a guard page,
/// the same for out or the map, and whether an empty slice is null.
pub const PLACINGS: usize = 8;

/// The same for a refine, with a fourth bit for out, since there the second is for the map.
pub const PLACINGS_OF_THREE: usize = 16;

/// The library's calls, in the header's order.
#[derive(Clone, Copy, Debug, PartialEq, Eq)]
pub enum Call {
    Check,
    Build,
    Refine,
    Open,
    Lookup,
}

pub const CALLS: [Call; 5] = [
    Call::Check,
    Call::Build,
    Call::Refine,
    Call::Open,
    Call::Lookup,
];

/// A slice that is lent by itself: the sheet of a check, or the map of an opening.
#[derive(Clone, Debug, PartialEq, Eq)]
pub struct Lent {
    pub placing: u8,
    pub bytes: Vec<u8>,
}

#[derive(Clone, Debug, PartialEq, Eq)]
pub struct Build {
    pub placing: u8,
    pub sheet: Vec<u8>,
    pub root: Root,
    pub out_len: usize,
    pub out_seed: u64,
}

#[derive(Clone, Debug, PartialEq, Eq)]
pub struct Refine {
    pub placing: u8,
    pub sheet: Vec<u8>,
    pub map: Vec<u8>,
    pub d: u8,
    pub out_len: usize,
    pub out_seed: u64,
}

#[derive(Clone, Debug, PartialEq, Eq)]
pub struct Lookup {
    pub placing: u8,
    pub sheet: Vec<u8>,
    pub map: Vec<u8>,
    pub points: Vec<[i32; 3]>,
}

#[derive(Clone, Debug, PartialEq, Eq)]
pub enum Case {
    Check(Lent),
    Build(Build),
    Refine(Refine),
    Open(Lent),
    Lookup(Lookup),
}

/// The outcome of a call: one reply, or one for each point of a lookup; every byte of out; and whether
/// what is only read is unchanged.
#[derive(Clone, Debug, PartialEq, Eq)]
pub struct Outcome {
    pub replies: Vec<Reply>,
    pub out: Vec<u8>,
    pub inputs_same: bool,
}

/// The bytes of out before a call, which the server makes from the same seed.
fn filled(length: usize, mut seed: u64) -> Vec<u8> {
    let next = || {
        seed ^= seed << 13;
        seed ^= seed >> 7;
        seed ^= seed << 17;
        seed as u8
    };
    std::iter::repeat_with(next).take(length).collect()
}

impl Build {
    pub fn out_before(&self) -> Vec<u8> {
        filled(self.out_len, self.out_seed)
    }
}

impl Refine {
    pub fn out_before(&self) -> Vec<u8> {
        filled(self.out_len, self.out_seed)
    }
}

impl Call {
    /// The plural name.
    pub fn name(self) -> &'static str {
        ["checks", "builds", "refines", "opens", "lookups"][self as usize]
    }
}

impl Case {
    pub fn call(&self) -> Call {
        match self {
            Case::Check(_) => Call::Check,
            Case::Build(_) => Call::Build,
            Case::Refine(_) => Call::Refine,
            Case::Open(_) => Call::Open,
            Case::Lookup(_) => Call::Lookup,
        }
    }

    /// The number of library calls in it.
    pub fn calls(&self) -> usize {
        match self {
            Case::Lookup(lookup) => lookup.points.len(),
            _ => 1,
        }
    }

    pub fn placing(&self) -> u8 {
        match self {
            Case::Check(lent) | Case::Open(lent) => lent.placing,
            Case::Build(build) => build.placing,
            Case::Refine(refine) => refine.placing,
            Case::Lookup(lookup) => lookup.placing,
        }
    }

    /// The sheet, if the call takes one.
    pub fn sheet(&self) -> Option<&[u8]> {
        match self {
            Case::Check(lent) => Some(&lent.bytes),
            Case::Build(build) => Some(&build.sheet),
            Case::Refine(refine) => Some(&refine.sheet),
            Case::Open(_) => None,
            Case::Lookup(lookup) => Some(&lookup.sheet),
        }
    }

    /// The map, if the call takes one.
    pub fn map(&self) -> Option<&[u8]> {
        match self {
            Case::Check(_) | Case::Build(_) => None,
            Case::Refine(refine) => Some(&refine.map),
            Case::Open(lent) => Some(&lent.bytes),
            Case::Lookup(lookup) => Some(&lookup.map),
        }
    }

    /// The case with its sheet changed, if the call takes one.
    pub fn with_sheet(&self, change: impl FnOnce(&mut Vec<u8>)) -> Case {
        let mut other = self.clone();
        match &mut other {
            Case::Check(lent) => change(&mut lent.bytes),
            Case::Build(build) => change(&mut build.sheet),
            Case::Refine(refine) => change(&mut refine.sheet),
            Case::Open(_) => (),
            Case::Lookup(lookup) => change(&mut lookup.sheet),
        }
        other
    }

    /// The case with its map changed, if the call takes one.
    pub fn with_map(&self, change: impl FnOnce(&mut Vec<u8>)) -> Case {
        let mut other = self.clone();
        match &mut other {
            Case::Check(_) | Case::Build(_) => (),
            Case::Refine(refine) => change(&mut refine.map),
            Case::Open(lent) => change(&mut lent.bytes),
            Case::Lookup(lookup) => change(&mut lookup.map),
        }
        other
    }

    /// The root that bounds are worked out over, if the call has one and it is in limits.
    pub fn root(&self) -> Option<Root> {
        let root = match self {
            Case::Check(_) | Case::Open(_) => None,
            Case::Build(build) => Some(build.root),
            Case::Refine(Refine { map, .. }) | Case::Lookup(Lookup { map, .. }) => {
                map.get(..HEADER).map(map::root)
            }
        };
        root.filter(Root::in_limits)
    }

    pub fn out_len(&self) -> usize {
        match self {
            Case::Build(build) => build.out_len,
            Case::Refine(refine) => refine.out_len,
            _ => 0,
        }
    }
}

/// Bytes in hex.
pub fn hex(bytes: &[u8]) -> String {
    bytes.iter().map(|byte| format!("{byte:02x}")).collect()
}

/// The bytes of a hex string.
pub fn of_hex(text: &str) -> Option<Vec<u8>> {
    let byte = |two: &[u8]| u8::from_str_radix(std::str::from_utf8(two).ok()?, 16).ok();
    text.as_bytes().chunks(2).map(byte).collect()
}
