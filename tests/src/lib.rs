//! An independent account of documents 01 and 02 in Rust, written from the documents, and made-up sheets and texts to try the library on.
pub mod blif;
pub mod buffer;
#[cfg(planner)]
pub mod compare;
pub mod cones;
pub mod header;
pub mod labels;
pub mod library;
pub mod limits;
pub mod made;
pub mod models;
pub mod plan;
pub mod planner;
pub mod programs;
pub mod random;
pub mod reader;
pub mod writer;
