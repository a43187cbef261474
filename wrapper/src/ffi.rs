//! The calls as C sees them (`include/zone.h`). All that is unsafe is here.
use crate::Root;

/// A reply by document 01's code and number.
#[repr(C)]
pub struct ZoneReply {
    pub code: u32,
    pub number: u64,
}

extern "C" {
    fn zone_check(sheet: *const u8, sheet_len: usize) -> ZoneReply;

    fn zone_build(
        sheet: *const u8,
        sheet_len: usize,
        x: i32,
        y: i32,
        z: i32,
        k: u8,
        d: u8,
        out: *mut u8,
        out_len: usize,
    ) -> ZoneReply;

    fn zone_refine(
        sheet: *const u8,
        sheet_len: usize,
        map: *const u8,
        map_len: usize,
        d: u8,
        out: *mut u8,
        out_len: usize,
    ) -> ZoneReply;

    fn zone_open(map: *const u8, map_len: usize) -> ZoneReply;

    fn zone_lookup(
        sheet: *const u8,
        sheet_len: usize,
        map: *const u8,
        map_len: usize,
        x: i32,
        y: i32,
        z: i32,
    ) -> ZoneReply;
}

pub fn check(sheet: &[u8]) -> ZoneReply {
    // SAFETY: the pointer goes with the slice's length, and the slice is lent for the length of the call, which only reads. The
    // call has no other needs: it is proved for all bytes.
    unsafe { zone_check(sheet.as_ptr(), sheet.len()) }
}

pub fn build(sheet: &[u8], root: Root, out: &mut [u8]) -> ZoneReply {
    let [x, y, z] = root.corner;
    // SAFETY: each pointer goes with its own slice's length, and both slices are lent for the length of the call. `out` is lent
    // to it alone, so it does not overlap the sheet. The call has no other needs: it is proved for all bytes and numbers.
    unsafe {
        zone_build(
            sheet.as_ptr(),
            sheet.len(),
            x,
            y,
            z,
            root.k,
            root.d,
            out.as_mut_ptr(),
            out.len(),
        )
    }
}

pub fn refine(sheet: &[u8], map: &[u8], d: u8, out: &mut [u8]) -> ZoneReply {
    // SAFETY: each pointer goes with its own slice's length, and the three slices are lent for the length of the call. `out` is
    // lent to it alone, so it overlaps neither the sheet nor the map. The call has no other needs: it is proved for all bytes and
    // numbers.
    unsafe {
        zone_refine(
            sheet.as_ptr(),
            sheet.len(),
            map.as_ptr(),
            map.len(),
            d,
            out.as_mut_ptr(),
            out.len(),
        )
    }
}

pub fn open(map: &[u8]) -> ZoneReply {
    // SAFETY: as for `check`.
    unsafe { zone_open(map.as_ptr(), map.len()) }
}

pub fn lookup(sheet: &[u8], map: &[u8], [x, y, z]: [i32; 3]) -> ZoneReply {
    // SAFETY: each pointer goes with its own slice's length, and both slices are lent for the length of the call, which only
    // reads. The call has no other needs: it is proved for all bytes and numbers.
    unsafe {
        zone_lookup(
            sheet.as_ptr(),
            sheet.len(),
            map.as_ptr(),
            map.len(),
            x,
            y,
            z,
        )
    }
}
