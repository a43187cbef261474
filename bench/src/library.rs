//! The proved library's calls, with replies as code and number, like the baseline's.
use crate::baseline::Root;
use crate::records::Refusal;

fn by_number(why: zone::Refusal) -> Refusal {
    (why.code(), why.number())
}

/// Builds into the lent buffer and returns the map's length.
pub fn build(
    sheet: &[u8],
    &Root { corner, k, d }: &Root,
    out: &mut [u8],
) -> Result<usize, Refusal> {
    zone::build(sheet, zone::Root { corner, k, d }, out).map_err(by_number)
}

/// Refines into the lent buffer and returns the new map's length.
pub fn refine(sheet: &[u8], map: &[u8], d: u8, out: &mut [u8]) -> Result<usize, Refusal> {
    zone::refine(sheet, map, d, out).map_err(by_number)
}

/// Document 01's number for a point: 0 outside, 1 inside, 2 undecided.
pub fn lookup(sheet: &[u8], map: &[u8], point: [i32; 3]) -> Result<u64, Refusal> {
    zone::lookup(sheet, map, point)
        .map(|answer| answer as u64)
        .map_err(by_number)
}
