//! SLU images of routines, and what there is to tell of one.

use gate_host::{Layout, Refusal, MARKS_ENOUGH, ROUTINES};
use std::io::{self, Write};

/// The lowest address of code: those below are memory's.
pub const LOWEST_BASE: u16 = 0x8000;

/// The most code bytes of an image: as many as there are marks that are enough for every one.
pub const MOST_CODE: usize = MARKS_ENOUGH;

/// A routine's bytes, and what people call it.
pub struct Routine {
    pub name: String,
    pub bytes: Vec<u8>,
}

/// The bytes of an image of routines, main last. Whether it is one, the library says.
pub fn image(version: u16, base: u16, routines: &[Routine]) -> Vec<u8> {
    let mut image = b"SLU".to_vec();
    image.extend(version.to_be_bytes());
    image.extend(base.to_be_bytes());
    // A number without room here is far above the most that there may be, and so is the one that stands in for it.
    image.push(u8::try_from(routines.len()).unwrap_or(u8::MAX));
    for routine in routines {
        image.extend(u16::try_from(routine.bytes.len()).unwrap_or(u16::MAX).to_be_bytes());
    }
    routines.iter().for_each(|routine| image.extend(&routine.bytes));
    image
}

/// Which rule the image of these routines breaks, where the library refuses it.
pub fn reason(refusal: Refusal, version: u16, base: u16, routines: &[Routine]) -> String {
    let size: usize = routines.iter().map(|routine| routine.bytes.len()).sum();
    let last = usize::from(base) + size.saturating_sub(1);
    let empty = routines.iter().find(|routine| routine.bytes.is_empty());
    match (refusal, empty) {
        (Refusal::UnknownVersion, _) => format!("version {version:04X} is neither 0001 nor 0002"),
        (Refusal::Layout, _) if routines.len() > ROUTINES => format!("{} routines, and {ROUTINES} are the most", routines.len()),
        (Refusal::Layout, Some(routine)) => format!("{} has no bytes", routine.name),
        (Refusal::Layout, _) if size > MOST_CODE => format!("{size} bytes of code, and {MOST_CODE} are the most"),
        (Refusal::Layout, _) if base < LOWEST_BASE => format!("base {base:04X} is below {LOWEST_BASE:04X}"),
        (Refusal::Layout, _) if last > 0xFFFF => format!("the code goes from {base:04X} to {last:05X}, past FFFF"),
        _ => refusal.to_string(),
    }
}

/// Prints version and base, and of each routine its first and last address and its name.
pub fn print(out: &mut dyn Write, layout: &Layout, names: impl Iterator<Item = String>) -> io::Result<()> {
    writeln!(out, "version {:04X}, base {:04X}", layout.version, layout.base)?;
    for (routine, name) in layout.routines().zip(names) {
        let address = |offset: usize| usize::from(layout.base) + offset;
        writeln!(out, "{:04X}-{:04X} {name}", address(routine.start), address(routine.end - 1))?;
    }
    Ok(())
}
