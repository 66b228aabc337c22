//! The command as people run it: what it makes of routines and of what the linker writes, and what it says where something goes
//! wrong.

mod folder;
mod linked;
mod packing;
mod toolchain;
mod trouble;
