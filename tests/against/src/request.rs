//! A case as a request to the server, written and read back.

use crate::case::{Build, Call, Case, Lent, Lookup, Refine, CALLS};
use paper::root::Root;

impl Case {
    /// The request, as tests/serve/serve.c reads it.
    pub fn request(&self) -> Vec<u8> {
        let mut bytes = vec![letter(self.call()), self.placing()];
        match self {
            Case::Check(lent) | Case::Open(lent) => add_slice(&mut bytes, &lent.bytes),
            Case::Build(build) => {
                add_slice(&mut bytes, &build.sheet);
                add_point(&mut bytes, build.root.low);
                bytes.extend([build.root.k, build.root.d]);
                add_out(&mut bytes, build.out_len, build.out_seed);
            }
            Case::Refine(refine) => {
                add_slice(&mut bytes, &refine.sheet);
                add_slice(&mut bytes, &refine.map);
                bytes.push(refine.d);
                add_out(&mut bytes, refine.out_len, refine.out_seed);
            }
            Case::Lookup(lookup) => {
                add_slice(&mut bytes, &lookup.sheet);
                add_slice(&mut bytes, &lookup.map);
                bytes.extend((lookup.points.len() as u32).to_le_bytes());
                for &point in &lookup.points {
                    add_point(&mut bytes, point);
                }
            }
        }
        bytes
    }

    /// The case of a request, if the bytes are one.
    pub fn of_request(bytes: &[u8]) -> Option<Case> {
        let (&[first, placing], mut rest) = bytes.split_first_chunk()?;
        let call = CALLS.into_iter().find(|&call| letter(call) == first)?;
        let case = match call {
            Call::Check => Case::Check(Lent {
                placing,
                bytes: take_slice(&mut rest)?,
            }),
            Call::Build => Case::Build(Build {
                placing,
                sheet: take_slice(&mut rest)?,
                root: Root {
                    low: take_point(&mut rest)?,
                    k: u8::from_le_bytes(take(&mut rest)?),
                    d: u8::from_le_bytes(take(&mut rest)?),
                },
                out_len: u32::from_le_bytes(take(&mut rest)?) as usize,
                out_seed: u64::from_le_bytes(take(&mut rest)?),
            }),
            Call::Refine => Case::Refine(Refine {
                placing,
                sheet: take_slice(&mut rest)?,
                map: take_slice(&mut rest)?,
                d: u8::from_le_bytes(take(&mut rest)?),
                out_len: u32::from_le_bytes(take(&mut rest)?) as usize,
                out_seed: u64::from_le_bytes(take(&mut rest)?),
            }),
            Call::Open => Case::Open(Lent {
                placing,
                bytes: take_slice(&mut rest)?,
            }),
            Call::Lookup => Case::Lookup(Lookup {
                placing,
                sheet: take_slice(&mut rest)?,
                map: take_slice(&mut rest)?,
                points: take_points(&mut rest)?,
            }),
        };
        rest.is_empty().then_some(case)
    }
}

/// The first byte of a request, as tests/serve/serve.c reads it.
fn letter(call: Call) -> u8 {
    match call {
        Call::Check => b'c',
        Call::Build => b'b',
        Call::Refine => b'r',
        Call::Open => b'o',
        Call::Lookup => b'l',
    }
}

fn add_slice(bytes: &mut Vec<u8>, slice: &[u8]) {
    bytes.extend((slice.len() as u32).to_le_bytes());
    bytes.extend(slice);
}

fn add_out(bytes: &mut Vec<u8>, length: usize, seed: u64) {
    bytes.extend((length as u32).to_le_bytes());
    bytes.extend(seed.to_le_bytes());
}

fn add_point(bytes: &mut Vec<u8>, point: [i32; 3]) {
    bytes.extend(point.iter().flat_map(|at| at.to_le_bytes()));
}

fn take<const N: usize>(rest: &mut &[u8]) -> Option<[u8; N]> {
    let (first, after) = rest.split_first_chunk()?;
    *rest = after;
    Some(*first)
}

fn take_slice(rest: &mut &[u8]) -> Option<Vec<u8>> {
    let length = u32::from_le_bytes(take(rest)?) as usize;
    let (slice, after) = rest.split_at_checked(length)?;
    *rest = after;
    Some(slice.to_vec())
}

fn take_point(rest: &mut &[u8]) -> Option<[i32; 3]> {
    let mut coordinate = || take(rest).map(i32::from_le_bytes);
    Some([coordinate()?, coordinate()?, coordinate()?])
}

fn take_points(rest: &mut &[u8]) -> Option<Vec<[i32; 3]>> {
    let count = u32::from_le_bytes(take(rest)?);
    (0..count).map(|_| take_point(rest)).collect()
}

#[cfg(test)]
mod tests {
    use super::*;
    use crate::case::{hex, of_hex};

    /// A case printed in hex can be run again.
    #[test]
    fn requests_are_read_back() {
        let root = Root {
            low: [-1, 2, i32::MIN],
            k: 3,
            d: 255,
        };
        let build = Case::Build(Build {
            placing: 3,
            sheet: vec![1, 2, 3],
            root,
            out_len: 70_000,
            out_seed: u64::MAX - 1,
        });
        let refine = Case::Refine(Refine {
            placing: 13,
            sheet: vec![4; 31],
            map: vec![5; 25],
            d: 10,
            out_len: 85,
            out_seed: 3,
        });
        let lookup = Case::Lookup(Lookup {
            placing: 4,
            sheet: vec![],
            map: vec![9; 300],
            points: vec![[1, -2, 3], [i32::MAX, 0, -1]],
        });
        let lent = |placing, bytes| Lent { placing, bytes };
        let check = Case::Check(lent(5, vec![0, 1]));
        let open = Case::Open(lent(2, vec![7; 22]));
        for case in [check, build, refine, open, lookup] {
            let text = hex(&case.request());
            assert_eq!(Case::of_request(&of_hex(&text).unwrap()), Some(case));
        }
    }
}
