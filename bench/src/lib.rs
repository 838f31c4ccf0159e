//! The speed table's jobs in plain Rust, and the calls of the proved functions beside them.

pub mod clock;
pub mod growth;
pub mod jobs;
pub mod letters_table;
pub mod lines;
pub mod machine;
pub mod made;
pub mod ours;
pub mod plain;
pub mod runs;
pub mod sessions;
pub mod sessions_table;
pub mod signatures;
pub mod steps;
pub mod table;
pub mod timing;
