//! Documents 01 and 02 word for word, as a brute force, one subject a file, and faster forms for the limits that are held to it. It shares
//! nothing with the proved crates.

pub mod by_hits;
pub mod cells;
pub mod complement;
pub mod definition1;
pub mod faster;
pub mod input;
pub mod letters;
pub mod line;
pub mod list;
pub mod output;
pub mod permille;
pub mod refusal;
pub mod score;
pub mod sketch;
pub mod start;
pub mod steps;
pub mod store;
pub mod strand;
pub mod strike;
pub mod work_words;
