//! A trace for scripts: one JSON object a line. Numbers are decimal, as JSON has no others.

use super::begin::{Begun, How};
use super::files::Files;
use super::machine::{Move, Totals};
use super::{End, Printer, FLAGS};
use gate_host::{Accepted, Refused, Registers};
use std::io::{self, Write};

pub struct Json;

impl Printer for Json {
    fn refused(&self, out: &mut dyn Write, refused: &Refused) -> io::Result<()> {
        let (number, text) = (refused.refusal.number(), string(&refused.to_string()));
        writeln!(out, "{{\"kind\":\"refused\",\"number\":{number},\"offset\":{},\"text\":{text}}}", refused.offset)
    }

    fn begun(&self, out: &mut dyn Write, begun: &Begun) -> io::Result<()> {
        let (registers, flags) = (object(&begun.registers), flags(begun.registers.cc));
        let how = match begun.how {
            How::Started(Accepted { need, count }) => format!("\"kind\":\"start\",\"need\":{need},\"count\":{count}"),
            How::Resumed(steps) => format!("\"kind\":\"resume\",\"steps\":{steps}"),
        };
        writeln!(out, "{{{how},\"registers\":{registers},\"flags\":{flags}}}")
    }

    fn made(&self, out: &mut dyn Write, made: &Move) -> io::Result<()> {
        moved(out, "step", made)
    }

    fn ended(&self, out: &mut dyn Write, end: &End, registers: &Registers, totals: &Totals) -> io::Result<()> {
        let (end, text) = match end {
            End::Finished => ("finished", None),
            End::Steps | End::DefaultSteps => ("steps", None),
            End::Total => ("total", None),
            End::Break => ("break", None),
            End::Trapped(answer) => ("trapped", Some(answer)),
        };
        let text = text.map_or(String::new(), |answer| format!(",\"text\":{}", string(answer)));
        ending(out, end, &text, registers, totals)
    }

    fn gone_back(&self, out: &mut dyn Write, undone: &Move) -> io::Result<()> {
        moved(out, "back", undone)
    }

    fn back(&self, out: &mut dyn Write, registers: &Registers, totals: &Totals) -> io::Result<()> {
        ending(out, "back", "", registers, totals)
    }

    fn written(&self, out: &mut dyn Write, files: &Files) -> io::Result<()> {
        let named = [("state", &files.state), ("memory", &files.memory)];
        let named = named.into_iter().filter_map(|(name, file)| Some((name, file.as_ref()?)));
        let names: String = named.map(|(name, file)| format!(",\"{name}\":{}", string(&file.display().to_string()))).collect();
        match names.is_empty() {
            true => Ok(()),
            false => writeln!(out, "{{\"kind\":\"saved\"{names}}}"),
        }
    }
}

fn moved(out: &mut dyn Write, kind: &str, moved: &Move) -> io::Result<()> {
    let Move { address, from, to, cycles, totals, .. } = moved;
    let stored: Vec<String> = moved
        .bytes
        .iter()
        .map(|byte| format!("{{\"address\":{},\"before\":{},\"after\":{}}}", byte.address, byte.before, byte.after))
        .collect();
    writeln!(
        out,
        "{{\"kind\":\"{kind}\",\"address\":{address},\"text\":{},\"before\":{},\"after\":{},\"flags\":{},\"changed\":{},\
         \"stored\":[{}],\"cycles\":{cycles},\"steps\":{},\"sum\":{}}}",
        string(moved.text.as_str()),
        object(from),
        object(to),
        flags(to.cc),
        flags(from.cc ^ to.cc),
        stored.join(","),
        totals.steps,
        totals.cycles,
    )
}

fn ending(out: &mut dyn Write, end: &str, text: &str, registers: &Registers, totals: &Totals) -> io::Result<()> {
    let (pc, Totals { steps, cycles, .. }) = (registers.pc, totals);
    writeln!(out, "{{\"kind\":\"end\",\"end\":\"{end}\"{text},\"address\":{pc},\"steps\":{steps},\"sum\":{cycles}}}")
}

fn object(registers: &Registers) -> String {
    let Registers { a, x, y, cc, sp, pc } = registers;
    format!("{{\"a\":{a},\"x\":{x},\"y\":{y},\"cc\":{cc},\"sp\":{sp},\"pc\":{pc}}}")
}

/// The names of the flags that are set.
fn flags(cc: u8) -> String {
    let set = FLAGS.iter().filter(|(bit, ..)| cc >> bit & 1 == 1);
    let names: Vec<String> = set.map(|(_, _, name)| string(name)).collect();
    format!("[{}]", names.join(","))
}

fn string(text: &str) -> String {
    let mut quoted = String::from('"');
    for letter in text.chars() {
        match letter {
            '"' | '\\' => quoted.extend(['\\', letter]),
            letter if letter < ' ' => quoted.push_str(&format!("\\u{:04X}", u32::from(letter))),
            letter => quoted.push(letter),
        }
    }
    quoted.push('"');
    quoted
}

#[cfg(test)]
mod tests {
    #[test]
    fn strings_are_quoted() {
        assert_eq!(super::string("LD A,$10"), "\"LD A,$10\"");
        assert_eq!(super::string("\"\\\n"), r#""\"\\\u000A""#);
    }
}
