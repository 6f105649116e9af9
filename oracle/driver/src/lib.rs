//! Books for the unchanged Rust: reading, writing, judging, generating.

pub mod answer;
pub mod bench;
pub mod bridge;
pub mod build;
pub mod cases;
pub mod caught;
pub mod expand;
pub mod lift;
pub mod limits;
pub mod listing;
pub mod measure;
pub mod notation;
pub mod passes;
pub mod places;
pub mod reach;
pub mod read;
pub mod record;
pub mod stop;
pub mod stories;
pub mod stream;
pub mod tree;
pub mod write;
