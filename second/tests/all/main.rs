//! The tests of the second program.

mod asn1parse;
mod cases;
mod command;
mod hand;
mod numbers;
mod paper;
mod readings;
mod round_trip;
mod screen;
