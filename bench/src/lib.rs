//! An independent, plain reader and writer of object audio metadata (OAMD)
//! payloads, and a generator of test payloads.
//!
//! `plain` was written from the documents alone: ETSI TS 103 420 V1.2.1
//! clauses 5.5 and 5.6 ("the standard"), the requirements and
//! the paper of open points. Clause and table
//! numbers in comments are those of the standard; "point n" is a number of the
//! open points.

pub mod check;
pub mod gen;
pub mod plain;
#[cfg(feature = "proved")]
pub mod proved;
