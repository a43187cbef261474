//! Document 01 in plain Rust, with the requests of document 02 that have landed, written from the documents alone.
//! The proved library is compared with it.
//!
//! There is a module for each section of the document, in its words and order, and each rule is in one
//! place. Clarity comes first. Whole numbers are exact: 128 bits where the paper's limits keep them
//! small, and of any size elsewhere.

pub mod before_03;
pub mod bounds;
pub mod build;
pub mod colour;
pub mod fractions;
pub mod lookup;
pub mod map;
pub mod refine;
pub mod root;
pub mod row_11;
pub mod sheet;
pub mod whole;

#[cfg(test)]
mod rows;
#[cfg(test)]
mod rows_01;
#[cfg(test)]
mod rows_07;

/// What a call returns: a code of the table "Replies, in order of test", and the number with it.
#[derive(Clone, Copy, Debug, PartialEq, Eq)]
pub struct Reply {
    pub code: u32,
    pub number: u64,
}

/// A reply whose code is not 0.
pub type Refusal = Reply;

/// The reply with a code and a number.
pub fn reply(code: u32, number: usize) -> Reply {
    Reply {
        code,
        number: number as u64,
    }
}
