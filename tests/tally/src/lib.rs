//! Document 01's tally, with document 02's calls `on` and `lows`: sessions and verdicts with tensors
//! as plain tables, without nodes.
//!
//! It is written from the documents alone, so that it can be held against the engine. Sentences in
//! quotation marks are theirs.

pub mod call;
pub mod field;
pub mod gate;
pub mod line;
pub mod matrix;
pub mod rules;
pub mod session;
pub mod set;
pub mod tensor;
pub mod text;
pub mod verdict;

/// "Capacity is the lent store's bytes divided by 16, rounded down, at most 65,535; it may be 0."
pub fn capacity(store_bytes: usize) -> usize {
    (store_bytes / 16).min(65_535)
}

#[cfg(test)]
mod tests;
