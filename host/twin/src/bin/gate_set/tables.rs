//! The tables: a row for each form, by groups as an author looks for them.

use crate::form::{opcodes, Opcode};
use crate::seen::{seen, Seen};

/// A group, and the names of its instructions in the order of its rows.
struct Group {
    title: &'static str,
    names: &'static [&'static str],
}

const GROUPS: [Group; 8] = [
    Group { title: "Loads and moves", names: &["LD", "LDW", "MOV", "EXGW"] },
    Group {
        title: "Arithmetic, logic and comparison with A",
        names: &["ADD", "ADC", "SUB", "SBC", "CP", "AND", "OR", "XOR", "BCP"],
    },
    Group {
        title: "Arithmetic, logic and shifts of one byte",
        names: &["INC", "DEC", "CLR", "TNZ", "NEG", "CPL", "SWAP", "SLL", "SRL", "SRA", "RLC", "RRC"],
    },
    Group { title: "Words, in X and Y", names: &["ADDW", "SUBW", "CPW", "INCW", "DECW", "CLRW", "MUL"] },
    Group { title: "Bits", names: &["BSET", "BRES", "BCPL", "BCCM", "BTJT", "BTJF"] },
    Group { title: STACK, names: &["PUSH", "PUSHW", "POP", "POPW", "SUB", "ADDW"] },
    Group {
        title: JUMPS,
        names: &[
            "JRA", "JRF", "JREQ", "JRNE", "JRC", "JRNC", "JRMI", "JRPL", "JRV", "JRNV", "JRUGT", "JRULE", "JRSGT", "JRSGE",
            "JRSLE", "JRSLT", "CALL", "CALLR", "RET",
        ],
    },
    Group { title: "Flags, and NOP", names: &["SCF", "RCF", "CCF", "RVF", "NOP"] },
];
const STACK: &str = "Stack";
const JUMPS: &str = "Jumps and calls";

/// The order of operands in rows of one name.
const OPERANDS: [&str; 18] = [
    "A",
    "X",
    "Y",
    "#byte",
    "#word",
    "shortmem",
    "longmem",
    "(X)",
    "(shortoff,X)",
    "(longoff,X)",
    "(Y)",
    "(shortoff,Y)",
    "(longoff,Y)",
    "(shortoff,SP)",
    "XL",
    "XH",
    "YL",
    "YH",
];

/// A row: the op-codes of one form, more than one where the form has a bit position n, and what was seen of each.
struct Row {
    opcodes: Vec<(Opcode, Seen)>,
}

impl Row {
    fn first(&self) -> &Opcode {
        &self.opcodes[0].0
    }

    fn group(&self) -> &'static Group {
        let Opcode { name, operands, .. } = self.first();
        let moves_sp = operands.first().is_some_and(|operand| operand == "SP");
        let fits = |group: &&Group| group.names.contains(&name.as_str()) && (group.title == STACK || !moves_sp);
        let group = GROUPS.iter().find(fits);
        group.unwrap_or_else(|| panic!("{name}: in no group"))
    }

    /// Where the row stands in its group.
    fn place(&self) -> (Option<usize>, Vec<usize>) {
        let Opcode { name, operands, .. } = self.first();
        let rank = |operand: &String| OPERANDS.iter().position(|known| known == operand).unwrap_or(OPERANDS.len());
        (self.group().names.iter().position(|known| known == name), operands.iter().map(rank).collect())
    }

    /// The op-code, with n for a bit position: op-codes of bit 0 to 7 stand two apart.
    fn opcode(&self) -> String {
        let bytes = &self.first().bytes;
        let digits: Vec<String> = bytes.iter().map(|byte| format!("{byte:02X}")).collect();
        if self.opcodes.len() == 1 {
            return digits.join(" ");
        }
        assert_eq!(self.opcodes.len(), 8, "{}", self.first().form());
        for (n, (opcode, _)) in self.opcodes.iter().enumerate() {
            assert_eq!(opcode.bytes.last().copied(), bytes.last().map(|last| last + 2 * n as u8), "{}", opcode.form());
            assert!(opcode.decoded.text.as_str().contains(&format!(",#{n}")), "{}", opcode.decoded.text);
        }
        format!("{}+2n", digits.join(" "))
    }

    /// The cells past the op-code, which all op-codes of the form share.
    fn cells(&self) -> Vec<String> {
        let cells: Vec<Vec<String>> = self.opcodes.iter().map(|(opcode, seen)| cells_of(opcode, seen)).collect();
        assert!(cells.iter().all(|other| *other == cells[0]), "{}", self.first().form());
        cells.into_iter().next().expect("an op-code")
    }

    fn line(&self) -> String {
        let first = self.first();
        let condition = if self.group().title == JUMPS { format!(" {} |", self.condition()) } else { String::new() };
        format!(
            "| `{}` | {} | {} |{condition} `{}` |\n",
            first.form(),
            self.opcode(),
            self.cells().join(" | "),
            first.decoded.text
        )
    }

    /// Where a jump on flags is taken; calls and RET have no condition.
    fn condition(&self) -> &'static str {
        let (opcode, seen) = &self.opcodes[0];
        if opcode.name.starts_with("JR") {
            seen.condition(&opcode.form())
        } else {
            "-"
        }
    }
}

fn cells_of(opcode: &Opcode, seen: &Seen) -> Vec<String> {
    let (form, cycles) = (opcode.form(), opcode.decoded.cycles);
    let cycles =
        if cycles.untaken == cycles.taken { cycles.taken.to_string() } else { format!("{}/{}", cycles.untaken, cycles.taken) };
    vec![opcode.decoded.length.to_string(), cycles, format!("`{}`", seen.flags(&form)), seen.stack(&form), seen.stores(&form)]
}

/// The rows of the whole set: op-codes of one form share one.
fn rows() -> Vec<Row> {
    let mut rows: Vec<Row> = Vec::new();
    for opcode in opcodes() {
        let seen = seen(&opcode);
        match rows.iter_mut().find(|row| row.first().form() == opcode.form()) {
            Some(row) => row.opcodes.push((opcode, seen)),
            None => rows.push(Row { opcodes: vec![(opcode, seen)] }),
        }
    }
    rows
}

fn table(group: &Group, rows: &[Row]) -> String {
    let mut rows: Vec<&Row> = rows.iter().filter(|row| row.group().title == group.title).collect();
    rows.sort_by_key(|row| row.place());
    let condition = if group.title == JUMPS { [" Jumps where |", "---|"] } else { ["", ""] };
    let head = format!("| Form | Op-code | Bytes | Cycles | V H N Z C | Stack | Stores |{} Text |\n", condition[0]);
    let rule = format!("|---|---|---|---|---|---|---|{}---|\n", condition[1]);
    let lines: String = rows.iter().map(|row| row.line()).collect();
    format!("\n### {}\n\n{head}{rule}{lines}", group.title)
}

pub fn printed() -> String {
    let rows = rows();
    let tables: String = GROUPS.iter().map(|group| table(group, &rows)).collect();
    let opcodes: Vec<&(Opcode, Seen)> = rows.iter().flat_map(|row| &row.opcodes).collect();
    let steps: usize = opcodes.iter().map(|(_, seen)| seen.steps()).sum();
    format!("{tables}\nIn all: {} op-codes in {} forms, and {steps} steps.\n\n", opcodes.len(), rows.len())
}
