//! Builds the map of a room with a round bay at depth 5, as a commissioner does before walking the corridor, refines it to depth 7, and
//! compares it with the one built afresh.
use zone::{Refusal, Root};

const SHEET: &[u8] = include_bytes!("../../examples/round-bay.sheet");

fn root(d: u8) -> Root {
    Root {
        corner: [0, 0, 0],
        k: 11,
        d,
    }
}

/// The number of gray leaves, where the panel has to ask the guest. A map has 19 bytes before its leaves, and each leaf is a level, a
/// class and a face; gray is class 4.
fn gray_leaves(map: &[u8]) -> usize {
    map[19..].chunks(3).filter(|leaf| leaf[1] == 4).count()
}

fn main() -> Result<(), Refusal> {
    let told = |what: &str, map: &[u8]| {
        let (bytes, gray) = (map.len(), gray_leaves(map));
        println!("{what}: {bytes} bytes, {gray} gray leaves");
    };
    let coarse = zone::build_vec(SHEET, root(5))?;
    told("built at depth 5", &coarse);
    let fine = zone::refine_vec(SHEET, &coarse, 7)?;
    told("refined to depth 7", &fine);
    let afresh = zone::build_vec(SHEET, root(7))?;
    told("built at depth 7", &afresh);
    assert!(fine == afresh, "the two differ");
    println!("the two are the same, byte for byte");
    Ok(())
}
