//! Random boards, sheets, move logs and position sheets, the texts that say them, and a strict reader of tags and pictures, shared by the comparison,
//! the benchmark and the tool's tests.

pub mod boards;
pub mod drawing;
pub mod logs;
pub mod positions;
pub mod random;
pub mod sheets;
pub mod tags;
pub mod texts;
