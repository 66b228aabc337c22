//! The map that the linker writes beside its code: pages, each of an area with the symbols in it.

/// The linker's name of no area: it has constants, and where each area begins and how long it is.
const ABSOLUTE: &str = ".  .ABS.";

#[derive(Clone, Debug, PartialEq, Eq)]
pub struct Symbol {
    pub name: String,
    pub address: usize,
}

/// The symbols of all areas, in the map's order, or what is wrong with its text.
pub fn symbols(text: &str) -> Result<Vec<Symbol>, String> {
    let mut symbols = Vec::new();
    let mut area = None;
    let mut hexadecimal = false;
    for line in text.lines() {
        if line.starts_with("Hexadecimal") {
            hexadecimal = true;
        } else if line.starts_with("Decimal") || line.starts_with("Octal") {
            return Err("its numbers are not hexadecimal: link without -d and -q".into());
        } else if line.contains(" bytes (") {
            area = Some(line);
        } else if line.starts_with("Files Linked") {
            area = None;
        } else if area.is_some_and(|area| !area.starts_with(ABSOLUTE)) {
            symbols.extend(line.split('|').filter_map(symbol));
        }
    }
    if hexadecimal {
        Ok(symbols)
    } else {
        Err("this is no map of the linker, which it writes for -m".into())
    }
}

/// The symbol of a line's cell: its value, its name and, on a wide page, its module.
fn symbol(cell: &str) -> Option<Symbol> {
    let mut words = cell.split_whitespace();
    let address = usize::from_str_radix(words.next()?, 16).ok()?;
    Some(Symbol { name: words.next()?.into(), address })
}
