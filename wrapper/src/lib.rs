//! Zone maps: check a zone sheet, build its map, refine a map, open one, and look a point up in it. Each call is proved, for all bytes and numbers,
//! to follow the rules of document 01; this crate turns the replies into Rust values.
//!
//! A sheet is of version 1 or 2, by its third byte. The two differ only in what a face is, the record of kind 16: where its operand is at
//! most 0 in version 1, and where it is less than 0 in version 2. So a point on a face satisfies the face in version 1, and its complement
//! in version 2: there the face belongs to the wall.
//!
//! The library has no global state, so any number of threads may call it at the same time, on the same sheet and map too.
//!
//! The crate links `libzone.a`. If the environment variable `ZONE_LIB_DIR` is set while the crate is built, it is the full path of the
//! folder that has the archive; otherwise the archive is the one in `target/` of this repository.
mod ffi;
mod refusal;

use ffi::ZoneReply;
pub use refusal::{End, Refusal};

/// Where a map is built: the root's low corner, its side 2^k in units of 1/256 metre, and the depth d.
#[derive(Clone, Copy, PartialEq, Eq, Debug)]
pub struct Root {
    pub corner: [i32; 3],
    pub k: u8,
    pub d: u8,
}

/// Where a point is. A later version may have more variants: treat one that you do not know as [`Answer::Undecided`].
#[derive(Clone, Copy, PartialEq, Eq, Debug)]
#[non_exhaustive]
pub enum Answer {
    Outside = 0,
    Inside = 1,
    /// The bounds cannot tell: ask the guest.
    Undecided = 2,
}

/// The number that comes with code 0.
fn number(reply: ZoneReply) -> Result<usize, Refusal> {
    match reply.code {
        0 => Ok(reply.number as usize),
        code => Err(Refusal::new(code, reply.number)),
    }
}

/// Checks a sheet, as [`build`], [`refine`] and [`lookup`] do before anything else, and returns the number of its records. The bounds of a
/// sheet that is good here may still be too large over some root ([`Refusal::OverRoot`]).
pub fn check(sheet: &[u8]) -> Result<usize, Refusal> {
    number(ffi::check(sheet))
}

/// Builds the zone map of a sheet at the start of `out`, and returns the map's length. The bytes of `out` after the map stay as they
/// were, and a refusal leaves all of `out` as it was. [`Refusal::Short`] has the number of bytes needed.
pub fn build(sheet: &[u8], root: Root, out: &mut [u8]) -> Result<usize, Refusal> {
    number(ffi::build(sheet, root, out))
}

/// Builds the zone map of a sheet into a vector of the map's own length, which may reach 3 GB at depth 10.
///
/// It calls [`build`] twice, the first time without a buffer, to learn the length. So the cubes are counted twice and written once: it
/// took 1.25 to 1.36 times as long as a [`build`] into a buffer that was there (the rooms of `examples/`, on Arm,
/// with an older kit).
pub fn build_vec(sheet: &[u8], root: Root) -> Result<Vec<u8>, Refusal> {
    into_vec(|out| build(sheet, root, out))
}

/// Asks a call that writes a map for the number of bytes needed, and lends it as many.
fn into_vec(write: impl Fn(&mut [u8]) -> Result<usize, Refusal>) -> Result<Vec<u8>, Refusal> {
    let needed = match write(&mut []) {
        Err(Refusal::Short { needed }) => needed,
        // No map has no bytes, so this is a refusal.
        other => return other.map(|_| Vec::new()),
    };
    let mut map = vec![0; needed];
    write(&mut map)?;
    Ok(map)
}

/// Refines a zone map to the depth `d`, with the sheet that it was built from, at the start of `out`, and returns the new map's length.
///
/// Each gray leaf is replaced by what [`build`] gives for its cube at the new depth: it may turn out white, black or terminal as a whole,
/// and is split if it is gray. All other leaves stand as they were, levels included. So a map that [`build`] made of this sheet becomes,
/// byte for byte, the one that [`build`] makes at the new depth.
///
/// `d` is at least the map's depth, at most 10 and at most its k; otherwise the call is refused by [`Refusal::Limits`], but only after the
/// map has been tested. The map is all of `map`, not a part of it. The bytes of `out` after the new map stay as they were, and a refusal
/// leaves all of `out` as it was. [`Refusal::Short`] has the number of bytes needed.
pub fn refine(sheet: &[u8], map: &[u8], d: u8, out: &mut [u8]) -> Result<usize, Refusal> {
    number(ffi::refine(sheet, map, d, out))
}

/// Refines a zone map into a vector of the new map's own length. It calls [`refine`] twice, as [`build_vec`] calls [`build`].
pub fn refine_vec(sheet: &[u8], map: &[u8], d: u8) -> Result<Vec<u8>, Refusal> {
    into_vec(|out| refine(sheet, map, d, out))
}

/// Opens a zone map without its sheet, and returns the number of its leaves. The map is all of `map`, not a part of it. A terminal leaf
/// may name any record here; [`refine`] and [`lookup`], which have the sheet, also refuse a leaf that names no face of it.
pub fn open(map: &[u8]) -> Result<usize, Refusal> {
    number(ffi::open(map))
}

/// Looks a point up in a zone map, with the sheet that the map was built from, in the same version: a map does not say which version its
/// sheet has. The map is all of `map`, not a part of it.
pub fn lookup(sheet: &[u8], map: &[u8], point: [i32; 3]) -> Result<Answer, Refusal> {
    let reply = ffi::lookup(sheet, map, point);
    match (reply.code, reply.number) {
        (0, 0) => Ok(Answer::Outside),
        (0, 1) => Ok(Answer::Inside),
        (0, 2) => Ok(Answer::Undecided),
        (code, number) => Err(Refusal::new(code, number)),
    }
}
