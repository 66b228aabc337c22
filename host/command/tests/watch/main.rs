//! `gate list` and `gate trace`, run as people run them: the examples against what is stored, and random routines against the library
//! and the twin.
//!
//! Where what is printed for an example is meant to change, GATE_STORE=1 writes it to `listed`, `traced` and `resumed` instead of
//! comparing.

mod binary;
mod drawing;
mod list;
mod maker;
mod pause;
mod run;
mod trace;
