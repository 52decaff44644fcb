//! A second implementation of document 01, with the requests of document 02 that have landed, to compare the product with. It shares no
//! algorithm with it: orders by permutation and routes by enumeration on small boards, distances by a backward fixpoint on large ones,
//! cycles by deleting dead ends, the words that a carrier reaches by a forward fixpoint, a replay's moves by listing all that are allowed,
//! a write's number from the words of its sheet and the room, the fault of a sheet or a board by going through its words or its rows.

mod board;
mod collapse;
pub mod document_01;
pub mod document_02;
mod fault;
mod key;
mod refused;
mod replay;
mod searched;
mod small;
mod sheet;
mod write;

pub use board::{read, Board, Rule, Zone};
pub use collapse::{collapse, left};
pub use fault::{fault, Fault, Reason};
pub use key::{key, key_by, key_of, named, Key};
pub use refused::{refused_at, Wrong};
pub use replay::{replay, Move, Position, Replay, HOME};
pub use searched::{tries, Try};
pub use sheet::{mark, mark_by};
pub use small::{all_positions_keep, key_by_enumeration, routes, Outcome};
pub use write::{write, Write};
