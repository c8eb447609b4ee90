//! The second program of Ennavizhil: it answers the same questions as the
//! proved one, from the rules alone, and makes the cases both are held against.

pub mod answer;
pub mod case;
pub mod content;
pub mod field;
pub mod generate;
pub mod item;
pub mod record;
pub mod refusal;
pub mod run;
pub mod screen;
pub mod sheet;
pub mod verdict;
pub mod writer;
