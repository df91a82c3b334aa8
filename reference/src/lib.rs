//! The ion telescope event processor and packet reader of documents 01 and 02, a second time:
//! plain Rust over the standard library, written from the papers (of `limits` see README.md) and sharing no
//! code with the proved one, so that the two can be compared byte for byte.
//!
//! "Document 01" is the scope paper; "document 02" the requests after it, by points; "000" the SIT
//! description; "001" the operations manual.

pub mod causes;
pub mod tables;

pub mod sample_counts;
pub mod samples;
pub mod sorting;

pub mod codes;
pub mod convert;
pub mod gatherer;
pub mod listing;
pub mod packets;
pub mod reader;

pub mod commands;
pub mod loads;

pub mod image;
pub mod judged;
pub mod limits;
pub mod processor;
pub mod station;

pub mod archive;
pub mod calls;
pub mod programs;

pub mod generate;
