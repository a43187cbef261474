//! Wrong rules of reading sheets and maps, for all calls that read them.

use crate::case::{Case, Outcome};
use crate::damage_maps::tell_length;
use crate::expect::by_paper;
use paper::colour::{GRAY, TERMINAL, TERMINAL_COMPLEMENT, WHITE};
use paper::map::{self, HEADER, LEAF};
use paper::sheet::{self, Record, Sheet, Sort, Version::One};
use paper::{reply, Reply};

/// The paper's replies, changed.
pub fn changed_replies(case: &Case, change: impl FnMut(&mut Reply)) -> Outcome {
    let mut outcome = by_paper(case);
    outcome.replies.iter_mut().for_each(change);
    outcome
}

pub fn offsets_from_record(case: &Case) -> Outcome {
    changed_replies(case, |reply| {
        if reply.code == 3 {
            reply.number -= 3;
        }
    })
}

/// Gives reply 4 for a record that comes before the one reply 3 names.
pub fn operands_early(case: &Case) -> Outcome {
    changed_replies(case, |given| {
        if let (3, Some(sheet)) = (given.code, case.sheet()) {
            let mut before = sheet[..given.number as usize].to_vec();
            let length = before.len() as u16 - 2;
            before[..2].copy_from_slice(&length.to_be_bytes());
            *given = match sheet::read(&before) {
                Err(refusal) if refusal.code == 4 => refusal,
                _ => *given,
            };
        }
    })
}

pub fn solid_without_count(case: &Case) -> Outcome {
    changed_replies(case, |reply| {
        if reply.code == 5 {
            reply.number = 0;
        }
    })
}

/// The number of the last record instead of the number of records.
pub fn last_record(case: &Case) -> Outcome {
    changed_replies(case, |reply| {
        if let (0, Case::Check(_)) = (reply.code, case) {
            reply.number -= 1;
        }
    })
}

/// Accepts faces of logical records: they are read as complements, which have the same form and logical operands.
pub fn face_of_face(case: &Case) -> Outcome {
    changed_replies(case, |given| {
        if let (4, Case::Check(lent)) = (given.code, case) {
            let records = sheet::framed(&lent.bytes).expect("reply 3 is tested before 4");
            let read = |(number, record): (usize, &Record)| match *record {
                Record::Face(a) if a < number && records[a].sort() == Sort::Logical => {
                    Record::Complement(a)
                }
                _ => record.clone(),
            };
            let other: Vec<Record> = records.iter().enumerate().map(read).collect();
            *given = sheet::check(&sheet::write(One, &other));
        }
    })
}

/// Counts leaves as all bytes after the length, divided by three.
pub fn leaves_by_length(case: &Case) -> Outcome {
    changed_replies(case, |given| {
        if let (0, Case::Open(lent)) = (given.code, case) {
            *given = reply(0, (lent.bytes.len() - 4) / LEAF);
        }
    })
}

/// Without a sheet, accepts no face that a leaf names.
pub fn faces_demanded(case: &Case) -> Outcome {
    changed_replies(case, |given| {
        if let Case::Open(lent) = case {
            let no_faces = Sheet {
                version: One,
                records: vec![],
            };
            let opened = map::read_for(&lent.bytes, &no_faces);
            *given = opened.err().unwrap_or(*given);
        }
    })
}

pub fn offsets_exchanged(case: &Case) -> Outcome {
    changed_replies(case, |given| match *given {
        Reply { code: 9, number: 4 } => *given = reply(9, 5),
        Reply { code: 9, number: 5 } => *given = reply(9, 4),
        _ => (),
    })
}

pub fn root_before_version(case: &Case) -> Outcome {
    changed_replies(case, |given| match case.map() {
        Some(map) if *given == reply(9, 4) && !map::root(map).in_limits() => *given = reply(9, 5),
        _ => (),
    })
}

pub fn no_leaves_length(case: &Case) -> Outcome {
    changed_replies(case, |given| match case.map() {
        Some(map) if *given == reply(9, HEADER) && map.len() == HEADER => *given = reply(9, 0),
        _ => (),
    })
}

/// The paper's outcome of the case with another map.
fn by_other_map(case: &Case, change: impl FnOnce(&mut Vec<u8>)) -> Outcome {
    by_paper(&case.with_map(change))
}

/// The same, with each leaf changed.
fn by_other_leaves(case: &Case, change: impl Fn(u8, &mut [u8])) -> Outcome {
    by_other_map(case, |map| {
        if let Some((header, leaves)) = map.split_first_chunk_mut::<HEADER>() {
            let d = header[HEADER - 1];
            leaves
                .chunks_exact_mut(LEAF)
                .for_each(|leaf| change(d, leaf));
        }
    })
}

pub fn not_turned(case: &Case) -> Outcome {
    by_other_leaves(case, |_, leaf| {
        if leaf[1] == TERMINAL_COMPLEMENT {
            leaf[1] = TERMINAL;
        }
    })
}

pub fn gray_above_depth(case: &Case) -> Outcome {
    by_other_leaves(case, |d, leaf| {
        if leaf[1] == GRAY && leaf[0] < d {
            leaf[1] = WHITE;
        }
    })
}

pub fn map_prefix(case: &Case) -> Outcome {
    by_other_map(case, |map| {
        let told = map
            .first_chunk()
            .map_or(0, |four| u32::from_be_bytes(*four));
        map.truncate((told as usize).saturating_add(4));
    })
}

/// Accepts leaves that follow when all places are taken.
pub fn stops_when_full(case: &Case) -> Outcome {
    by_other_map(case, |map| {
        let given = map::open(map);
        if given.code == 9 && given.number >= HEADER as u64 {
            let mut before = map[..given.number as usize].to_vec();
            tell_length(&mut before);
            if map::open(&before).code == 0 {
                *map = before;
            }
        }
    })
}

pub fn map_k_at_most_15(case: &Case) -> Outcome {
    by_other_map(case, |map| {
        if let Some(k @ 16) = map.get_mut(17) {
            *k = 17;
        }
    })
}

pub fn map_corner_exchanged(case: &Case) -> Outcome {
    by_other_map(case, |map| {
        if map.len() >= HEADER {
            let (to_y, from_z) = map.split_at_mut(13);
            to_y[9..].swap_with_slice(&mut from_z[..4]);
        }
    })
}
