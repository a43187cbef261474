//! Checks the sheet of the step room (x at most 2 and y at most 2), builds its map, opens it as a panel does, and looks points up.
use zone::{Refusal, Root};

const SHEET: &[u8] = include_bytes!("../../examples/step-room.sheet");
const ROOT: Root = Root {
    corner: [0, 0, 0],
    k: 2,
    d: 1,
};

fn main() -> Result<(), Refusal> {
    println!("the sheet has {} records", zone::check(SHEET)?);
    let map = zone::build_vec(SHEET, ROOT)?;
    println!("the map has {} bytes", map.len());
    println!("it opens, with {} leaves", zone::open(&map)?);
    for point in [[0, 0, 0], [3, 0, 0], [2, 2, 0]] {
        println!("{point:?}: {:?}", zone::lookup(SHEET, &map, point)?);
    }
    match zone::lookup(SHEET, &map, [4, 0, 0]) {
        Ok(answer) => println!("[4, 0, 0]: {answer:?}"),
        Err(why) => println!("[4, 0, 0]: refused, {why}"),
    }
    Ok(())
}
