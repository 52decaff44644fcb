//! What the program `nizkabel` is made of: boards, sheets and logs in readable form, and the place and the reason of a sheet's fault. Every verdict
//! and every mark is the proved library's, asked through its wrapper: nothing here marks a sheet, looks for a route or carries out a move.

pub mod board;
pub mod board_file;
pub mod candidates;
mod circle;
mod csv;
mod curves;
pub mod fault;
mod html;
mod label;
mod labels;
mod layout;
mod legend;
mod markup;
pub mod marks;
pub mod moves;
pub mod page;
pub mod paper;
pub mod picture;
mod plane;
pub mod refused;
mod route;
mod shapes;
mod sheet;
pub mod sitting;
pub mod text;
