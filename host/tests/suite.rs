//! Every test that calls the library, as one program: what they share is compiled once.

mod against_plain;
mod cases;
mod command;
mod common;
mod dense;
mod drawing;
mod examples;
mod frame;
mod halts;
mod inverses;
mod looks;
mod mirror;
mod powers;
mod refusals;
mod resets;
mod runs;
mod saved;
mod share;
mod states;
mod text;
mod tray;
mod writer;
