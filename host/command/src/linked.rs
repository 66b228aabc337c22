//! Routines in linked code, by the symbols of the map.

use crate::hex::Code;
use crate::map::Symbol;
use crate::slu::Routine;

/// The routines that begin at the symbols in the code, in the order of their addresses; where names are given, at those alone. Each
/// goes up to the next one, and the last to the end of the code.
pub fn routines(code: &Code, symbols: &[Symbol], names: Option<&[&str]>) -> Result<Vec<Routine>, String> {
    let starts = match names {
        Some(names) => named(code, symbols, names)?,
        None => all(code, symbols),
    };
    let base = usize::from(code.base);
    let first = starts.first().ok_or_else(|| format!("it has no symbol in {}: {GLOBAL}", range(code)))?;
    if first.address > base {
        let before = first.address - 1;
        return Err(format!(
            "no routine has {base:04X} to {before:04X}, for {} at {:04X} is the first: {GLOBAL}",
            first.name,
            before + 1
        ));
    }
    let ends = starts[1..].iter().map(|next| next.address - base).chain([code.bytes.len()]);
    let routine = |(start, end): (&Symbol, usize)| Routine {
        name: start.name.clone(),
        bytes: code.bytes[start.address - base..end].to_vec(),
    };
    Ok(starts.iter().zip(ends).map(routine).collect())
}

/// What an author has to see to.
const GLOBAL: &str = "a routine's label has to be global, no function static or called main, and no data among the code";

/// Of two symbols at one address the first stands for both.
fn all(code: &Code, symbols: &[Symbol]) -> Vec<Symbol> {
    let mut starts: Vec<Symbol> = symbols.iter().filter(|symbol| is_in(code, symbol)).cloned().collect();
    starts.sort_by_key(|symbol| symbol.address);
    starts.dedup_by_key(|symbol| symbol.address);
    starts
}

/// Names are given as in the assembler or, without the underscore before each, as in C. They rise, so that the author knows which
/// one is main.
fn named(code: &Code, symbols: &[Symbol], names: &[&str]) -> Result<Vec<Symbol>, String> {
    let mut starts: Vec<Symbol> = Vec::new();
    for name in names {
        let find = |wanted: &str| symbols.iter().find(|symbol| symbol.name == wanted);
        let symbol = find(name).or_else(|| find(&format!("_{name}"))).ok_or_else(|| missing(symbols, name))?;
        if !is_in(code, symbol) {
            return Err(format!("{name} at {:04X} is not in {}", symbol.address, range(code)));
        }
        if let Some(before) = starts.last().filter(|before| before.address >= symbol.address) {
            let (left, right) = (before.address, symbol.address);
            return Err(format!(
                "{} at {left:04X} is not before {name} at {right:04X}; name routines as they stand, main last",
                before.name
            ));
        }
        starts.push(symbol.clone());
    }
    Ok(starts)
}

fn missing(symbols: &[Symbol], name: &str) -> String {
    let names: Vec<&str> = symbols.iter().map(|symbol| symbol.name.as_str()).collect();
    match names[..] {
        [] => format!("it has no symbol {name}, nor any other: {GLOBAL}"),
        _ => format!("it has no symbol {name}, but {}", names.join(", ")),
    }
}

fn is_in(code: &Code, symbol: &Symbol) -> bool {
    symbol.address.checked_sub(code.base.into()).is_some_and(|offset| offset < code.bytes.len())
}

fn range(code: &Code) -> String {
    format!("the code, {:04X} to {:04X}", code.base, usize::from(code.base) + code.bytes.len() - 1)
}
