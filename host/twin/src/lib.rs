//! An independent twin of the loader in plain Rust, written from documents 01 and 02 and the STM8 manual alone, never from the
//! proved code.
//!
//! What is worth comparing is what two people read out of the same documents, so nothing here is shared with the library but the
//! names of [`gate_host::Limits`] and the like. It is also the yardstick of speed.

mod check;
mod cycles;
mod decode;
mod image;
mod machine;
pub mod random;
mod record;
mod saved;
pub mod slu;
mod text;
mod turn;

pub use check::{check, depth_change};
pub use cycles::when;
pub use decode::{decode, Alu, Bit, Half, Index, Instruction, Modify, Place, Source, Target, Undecodable, WordOp, WordSource};
pub use image::{granted, holds, validate, Image};
pub use machine::{run, start, step};
pub use record::step_back;
pub use saved::{resume, save, Resumed};
pub use text::text;
pub use turn::turn;
