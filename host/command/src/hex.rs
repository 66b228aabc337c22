//! Intel HEX, as the linker writes it: lines of `:`, a count, an address, a type, bytes and a checksum.

use crate::slu::LOWEST_BASE;

/// Bytes without a gap, and the address of the first, which is from 8000 to FFFF.
#[derive(Debug, PartialEq, Eq)]
pub struct Code {
    pub base: u16,
    pub bytes: Vec<u8>,
}

/// One past the last address.
const ADDRESSES: usize = 0x1_0000;

const DATA: u8 = 0;
const END: u8 = 1;
const UPPER_ADDRESS: u8 = 4;

struct Record {
    address: u16,
    kind: u8,
    bytes: Vec<u8>,
}

/// The code in the text of a file, or what is wrong with it.
pub fn code(text: &[u8]) -> Result<Code, String> {
    let mut cells: Vec<Option<u8>> = vec![None; ADDRESSES];
    let mut upper = 0;
    let mut ended = false;
    for (number, line) in (1..).zip(text.split(|&byte| byte == b'\n')) {
        let line = line.trim_ascii();
        if line.is_empty() {
            continue;
        }
        let at_line = |why: String| format!("line {number}: {why}");
        if ended {
            return Err(at_line("it stands after the end record".into()));
        }
        let record = record(line).map_err(at_line)?;
        match record.kind {
            DATA => place(&mut cells, upper, &record).map_err(at_line)?,
            END => ended = true,
            UPPER_ADDRESS => upper = upper_address(&record).map_err(at_line)?,
            kind => return Err(at_line(format!("its type is {kind:02X}, and the linker writes 00, 01 and 04"))),
        }
    }
    if !ended {
        return Err("there is no end record: this is no Intel HEX file, or it is cut short".into());
    }
    without_gap(&cells)
}

fn record(line: &[u8]) -> Result<Record, String> {
    let digits = line.strip_prefix(b":").ok_or("it does not begin with a colon")?;
    let bytes = pairs(digits).ok_or("after the colon it is not of hexadecimal digits in pairs")?;
    let [count, high, low, kind, ref inner @ .., checksum] = bytes[..] else {
        return Err("it is too short for a record".into());
    };
    if inner.len() != usize::from(count) {
        return Err(format!("it tells of {count} bytes and has {}", inner.len()));
    }
    let sum = bytes[..bytes.len() - 1].iter().fold(0u8, |sum, &byte| sum.wrapping_add(byte));
    if checksum != sum.wrapping_neg() {
        return Err(format!("its checksum is {checksum:02X}, and its bytes give {:02X}", sum.wrapping_neg()));
    }
    Ok(Record { address: u16::from_be_bytes([high, low]), kind, bytes: inner.to_vec() })
}

fn pairs(digits: &[u8]) -> Option<Vec<u8>> {
    let value = |digit: u8| char::from(digit).to_digit(16).and_then(|value| u8::try_from(value).ok());
    let pair = |pair: &[u8]| if let [high, low] = *pair { Some(value(high)? * 16 + value(low)?) } else { None };
    digits.chunks(2).map(pair).collect()
}

/// The upper 16 bits of the addresses that follow.
fn upper_address(record: &Record) -> Result<usize, String> {
    match record.bytes[..] {
        [high, low] => Ok(usize::from(u16::from_be_bytes([high, low])) * ADDRESSES),
        _ => Err("a record of type 04 has two bytes".into()),
    }
}

fn place(cells: &mut [Option<u8>], upper: usize, record: &Record) -> Result<(), String> {
    for (address, &byte) in (upper + usize::from(record.address)..).zip(&record.bytes) {
        match cells.get_mut(address) {
            _ if address < LOWEST_BASE.into() => return Err(outside(address)),
            None => return Err(outside(address)),
            Some(Some(_)) => return Err(format!("there is a byte for {address:04X} already")),
            Some(cell) => *cell = Some(byte),
        }
    }
    Ok(())
}

fn outside(address: usize) -> String {
    format!("a byte for {address:04X}, and an image's code is from {LOWEST_BASE:04X} to FFFF")
}

fn without_gap(cells: &[Option<u8>]) -> Result<Code, String> {
    let first = cells.iter().position(Option::is_some).ok_or("there is no code in it")?;
    let last = cells.iter().rposition(Option::is_some).unwrap_or(first);
    let missing = |&address: &usize| cells[address].is_none();
    if let Some(low) = (first..last).find(missing) {
        let high = (low..last).take_while(missing).last().unwrap_or(low);
        return Err(format!("no bytes for {low:04X} to {high:04X}, and there are some before and after"));
    }
    let base = u16::try_from(first).map_err(|_| outside(first))?;
    Ok(Code { base, bytes: cells[first..=last].iter().flatten().copied().collect() })
}
