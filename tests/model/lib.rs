//! An independent model of document 01 and of requests 1/12 to 5/12 and 7/12 to 12/12 of
//! document 02, and what the tests make with it.

pub mod arguments;
pub mod console;
pub mod consoles;
pub mod damage;
pub mod demand3;
pub mod drill;
pub mod explain;
pub mod generate;
pub mod holding;
pub mod lines;
pub mod lists;
pub mod live;
pub mod log;
pub mod margins;
pub mod mend;
pub mod model;
pub mod moved;
pub mod notation;
pub mod opinion;
pub mod overlaps;
pub mod pairings;
pub mod pairs;
pub mod picture;
pub mod pieces;
pub mod program;
pub mod random;
pub mod readers;
pub mod row;
pub mod rows;
pub mod shifts;
pub mod states;
pub mod tally;
pub mod xml;
