//! Evidence beside the proofs: the engine, as hosts link it, beside a model of document 01 and beside the published Rust.

pub mod arguments;
pub mod bytes;
pub mod call;
pub mod carvings;
pub mod close_calls;
pub mod cut_lists;
pub mod dividers;
pub mod files;
pub mod flat;
pub mod memories;
pub mod model;
pub mod no_rings;
pub mod opened;
pub mod parts;
pub mod random;
pub mod renumbering;
pub mod rows;
pub mod seeded;
pub mod session;
pub mod singly;
pub mod solids;
pub mod strange;
pub mod taken_apart;
pub mod two_rings;
