//! Damaged maps, byte by byte and field by field.

use crate::random::Random;
use paper::colour::GRAY;
use paper::map::{HEADER, LEAF};

/// A map, good or not.
type Bytes = Vec<u8>;
type Damage = fn(&mut Bytes, &mut Random);

const DAMAGES: [(&str, Damage); 21] = [
    ("map: length", length),
    ("map: version", version),
    ("map: corner", corner),
    ("map: k", k),
    ("map: d", d),
    ("map: level", level),
    ("map: class", class),
    ("map: gray leaf", gray),
    ("map: face", face),
    ("map: leaf removed", removed),
    ("map: leaf twice", twice),
    ("map: leaves swapped", swapped),
    ("map: leaf for eight", joined),
    ("map: eight for a leaf", split),
    ("map: cut", cut),
    ("map: cut by leaves, length agrees", cut_told),
    ("map: longer", longer),
    ("map: longer, length agrees", longer_told),
    ("map: leaf added", leaf_added),
    ("map: header only", header_only),
    ("map: under 19 bytes", under_19),
];

/// Damages a good map in one field, in two, or in one byte.
pub fn damaged(map: &[u8], random: &mut Random) -> (&'static str, Vec<u8>) {
    let mut bytes = map.to_vec();
    if random.once_in(6) {
        let at = random.below(bytes.len());
        bytes[at] = random.byte();
        return ("map: a byte", bytes);
    }
    let (label, damage) = random.pick(&DAMAGES);
    damage(&mut bytes, random);
    if random.once_in(4) && bytes.len() > HEADER {
        random.pick(&DAMAGES).1(&mut bytes, random);
    }
    (label, bytes)
}

/// Writes the right length into the first four bytes.
pub fn tell_length(map: &mut [u8]) {
    let length = map.len() as u32 - 4;
    map[..4].copy_from_slice(&length.to_be_bytes());
}

fn near(byte: u8, random: &mut Random) -> u8 {
    let any = random.byte();
    let (less, more) = (byte.wrapping_sub(1), byte.wrapping_add(1));
    random.pick(&[less, more, 0, 255, any])
}

/// The offset of the first byte of some leaf. In a map without leaves, the header's last three bytes serve
/// as one.
fn leaf(map: &[u8], random: &mut Random) -> usize {
    let leaves = (map.len() - HEADER) / LEAF;
    if leaves == 0 {
        return HEADER - LEAF;
    }
    HEADER + LEAF * random.below(leaves)
}

fn length(map: &mut Bytes, random: &mut Random) {
    let at = random.below(4);
    map[at] = near(map[at], random);
}

fn version(map: &mut Bytes, random: &mut Random) {
    map[4] = near(map[4], random);
}

fn corner(map: &mut Bytes, random: &mut Random) {
    let at = 5 + random.below(12);
    map[at] = near(map[at], random);
}

fn k(map: &mut Bytes, random: &mut Random) {
    map[17] = near(map[17], random);
}

fn d(map: &mut Bytes, random: &mut Random) {
    map[18] = near(map[18], random);
}

fn level(map: &mut Bytes, random: &mut Random) {
    let at = leaf(map, random);
    map[at] = near(map[at], random);
}

fn class(map: &mut Bytes, random: &mut Random) {
    let at = leaf(map, random) + 1;
    map[at] = random.between(0, 5) as u8;
}

fn gray(map: &mut Bytes, random: &mut Random) {
    let at = leaf(map, random);
    map[at + 1..at + LEAF].copy_from_slice(&[GRAY, 0]);
}

fn face(map: &mut Bytes, random: &mut Random) {
    let at = leaf(map, random) + 2;
    map[at] = near(map[at], random);
}

fn removed(map: &mut Bytes, random: &mut Random) {
    let at = leaf(map, random);
    map.drain(at..at + LEAF);
    tell_length(map);
}

fn twice(map: &mut Bytes, random: &mut Random) {
    let at = leaf(map, random);
    map.splice(at..at, map[at..at + LEAF].to_vec());
    tell_length(map);
}

fn swapped(map: &mut Bytes, random: &mut Random) {
    let (a, b) = (leaf(map, random), leaf(map, random));
    for byte in 0..LEAF {
        map.swap(a + byte, b + byte);
    }
}

/// One leaf in place of up to eight, one level up: often good.
fn joined(map: &mut Bytes, random: &mut Random) {
    let at = leaf(map, random);
    let end = map.len().min(at + 8 * LEAF);
    let up = map[at].saturating_sub(1);
    map.splice(at..end, [up, random.below(2) as u8, 0]);
    tell_length(map);
}

/// Eight leaves in place of one, one level down: good unless the level passes d.
fn split(map: &mut Bytes, random: &mut Random) {
    let at = leaf(map, random);
    let down = map[at].saturating_add(1);
    let eight = (0..8).flat_map(|_| [down, random.below(2) as u8, 0]);
    let eight: Vec<u8> = eight.collect();
    map.splice(at..at + LEAF, eight);
    tell_length(map);
}

fn cut(map: &mut Bytes, random: &mut Random) {
    map.truncate(random.below(map.len()).max(HEADER));
}

fn cut_told(map: &mut Bytes, random: &mut Random) {
    map.truncate(leaf(map, random).max(HEADER));
    tell_length(map);
}

fn longer(map: &mut Bytes, random: &mut Random) {
    map.extend((0..random.between(1, 6)).map(|byte| byte as u8));
}

fn longer_told(map: &mut Bytes, random: &mut Random) {
    longer(map, random);
    tell_length(map);
}

fn leaf_added(map: &mut Bytes, random: &mut Random) {
    let level = random.pick(&[0, map[18]]);
    map.extend([level, random.below(2) as u8, 0]);
    tell_length(map);
}

fn header_only(map: &mut Bytes, _: &mut Random) {
    map.truncate(HEADER);
    tell_length(map);
}

fn under_19(map: &mut Bytes, random: &mut Random) {
    map.truncate(random.below(HEADER));
    if map.len() >= 4 && random.once_in(2) {
        tell_length(map);
    }
}
