//! The examples of docs/FORMAT.md, read out of it and put through the library. The document says how a line of cases is read.

use gate_host::{
    check, decode, resume, run, save, start, step, step_back, turn, Accepted, Area, Ending, Limits, Overwritten, Record, Refused,
    Registers, Run, Step, Turn, MARKS_ENOUGH, MEMORY_BYTES,
};
use gate_twin::slu;
use std::collections::BTreeSet;
use std::fs;
use std::path::Path;

fn file(name: &str) -> String {
    let path = Path::new(env!("CARGO_MANIFEST_DIR")).join("../..").join(name);
    fs::read_to_string(path).unwrap_or_else(|error| panic!("{name}: {error}"))
}

/// The fenced blocks of the document: the word after the fence, and the lines.
fn blocks(text: &str) -> Vec<(&str, &str)> {
    let fenced = text.split("```").skip(1).step_by(2);
    fenced.map(|block| block.split_once('\n').expect("a fence stands alone in its line")).collect()
}

fn number(digits: &str) -> u32 {
    u32::from_str_radix(digits, 16).unwrap_or_else(|_| panic!("{digits}: not hexadecimal"))
}

fn bytes(text: &str) -> Vec<u8> {
    text.split_whitespace().filter(|digits| *digits != "none").map(|digits| number(digits) as u8).collect()
}

/// Bytes as digits without spaces.
fn row(digits: &str) -> Vec<u8> {
    (0..digits.len() / 2).map(|at| number(&digits[2 * at..2 * at + 2]) as u8).collect()
}

fn area(low: u32, high: u32) -> Area {
    Area { low: low as u16, high: high as u16 }
}

fn refused(Refused { refusal, offset, .. }: &Refused) -> String {
    format!("refused {} {offset}", refusal.number())
}

fn verdict(answer: &Result<Accepted, Refused>) -> String {
    match answer {
        Ok(Accepted { need, count, .. }) => format!("accepted {need} {count}"),
        Err(why) => refused(why),
    }
}

/// What `gatecheck` prints for limits and an image.
fn listing(input: &[u8]) -> String {
    let (limits, image) = input.split_at(12);
    let ends: Vec<u32> = limits.chunks(2).map(|end| u16::from_be_bytes([end[0], end[1]]).into()).collect();
    let limits = Limits { grant: area(ends[0], ends[1]), stack: area(ends[2], ends[3]), second: area(ends[4], ends[5]) };
    let mut marks = [0; MARKS_ENOUGH];
    let answer = check(image, &limits, &mut marks);
    let mut lines = verdict(&answer) + "\n";
    let code = &image[8 + 2 * usize::from(image[7])..];
    for (offset, mark) in marks.iter().enumerate().filter(|(_, &mark)| mark != 0) {
        let address = u16::from_be_bytes([image[5], image[6]]) + offset as u16;
        let text = decode(&code[offset..], address).expect("an instruction at a start").text;
        lines += &format!("{address:04X} {} {text}\n", mark - 1);
    }
    lines
}

#[test]
fn images_get_their_verdicts() {
    let text = file("docs/FORMAT.md");
    let blocks: Vec<(&str, &str)> = blocks(&text).into_iter().filter(|(kind, _)| *kind != "cases").collect();
    assert!(blocks.len() >= 6, "{} blocks", blocks.len());
    for pair in blocks.chunks(2) {
        let [("slu", image), ("verdict", expected)] = pair else { panic!("an image and its verdict, not {pair:?}") };
        let input: String = image.lines().map(|line| line.split(';').next().unwrap_or("").to_owned() + " ").collect();
        assert_eq!(listing(&bytes(&input)), *expected, "{image}");
    }
}

/// What a mark holds before a check.
const MARK: u16 = 9;

/// What a line of cases gives, or what holds where it says nothing.
struct Case<'a> {
    verb: &'a str,
    bytes: &'a str,
    version: u16,
    base: u16,
    limits: Limits,
    marks: usize,
    memory: Vec<u8>,
    registers: Registers,
    budget: u32,
    count: u32,
    steps: u64,
    /// The version of the saved state.
    sls: u32,
    saved: Option<Vec<u8>>,
    expected: &'a str,
}

impl<'a> Case<'a> {
    fn read(line: &'a str) -> Case<'a> {
        let (given, expected) = line.split_once(" -> ").expect("an answer");
        let (call, settings) = given.split_once(" with ").unwrap_or((given, ""));
        let (verb, bytes) = call.split_once(' ').unwrap_or((call, ""));
        let mut case = Case {
            verb,
            bytes,
            version: 2,
            base: 0x8000,
            limits: Limits { grant: area(0x0000, 0x00FF), stack: area(0x0300, 0x03FF), second: Area::NONE },
            marks: MARKS_ENOUGH,
            memory: vec![0; MEMORY_BYTES],
            registers: Registers::default(),
            budget: 0,
            count: bytes.split(' ').count() as u32,
            steps: 0,
            sls: 2,
            saved: None,
            expected,
        };
        if verb != "start" {
            let before_main: usize = case.routines().iter().rev().skip(1).map(Vec::len).sum();
            case.registers = Registers { sp: 0x03FD, pc: u32::from(case.base) + before_main as u32, ..case.registers };
        }
        for setting in settings.split_whitespace() {
            case.set(setting);
        }
        case
    }

    fn set(&mut self, setting: &str) {
        let (name, value) = setting.split_once('=').expect("a name and a value");
        let ends = || value.split_once('-').map(|(low, high)| area(number(low), number(high))).expect("low and high");
        let decimal = || value.parse::<u32>().expect("decimal");
        match name {
            "version" => self.version = number(value) as u16,
            "base" => self.base = number(value) as u16,
            "grant" => self.limits.grant = ends(),
            "stack" => self.limits.stack = ends(),
            "second" => self.limits.second = ends(),
            "marks" => self.marks = decimal() as usize,
            "memory" => self.memory.truncate(decimal() as usize),
            "budget" => self.budget = decimal(),
            "count" => self.count = decimal(),
            "steps" => self.steps = value.parse().expect("decimal"),
            "sls" => self.sls = number(value),
            "saved" => self.saved = Some(row(value)),
            "A" => self.registers.a = number(value) as u8,
            "X" => self.registers.x = number(value) as u16,
            "Y" => self.registers.y = number(value) as u16,
            "CC" => self.registers.cc = number(value) as u8,
            "SP" => self.registers.sp = number(value) as u16,
            "PC" => self.registers.pc = number(value),
            _ => self.memory[number(name.trim_matches(['[', ']'])) as usize] = number(value) as u8,
        }
    }

    fn routines(&self) -> Vec<Vec<u8>> {
        match self.verb {
            "back" => Vec::new(),
            _ => self.bytes.split('/').map(bytes).collect(),
        }
    }

    fn image(&self) -> Vec<u8> {
        match self.verb {
            "image" => bytes(self.bytes),
            _ => slu::image_of(self.version, self.base, &self.routines()),
        }
    }

    /// What comes of it, in the document's words.
    fn outcome(&self) -> String {
        match self.verb {
            "check" | "image" => self.checked(),
            "turn" => self.turned(),
            "start" => self.started(),
            "step" => self.stepped(),
            "run" => self.ran(),
            "save" => self.saved(),
            "resume" => self.resumed(),
            "back" => self.gone_back(),
            "decode" => self.decoded(),
            other => panic!("{other}: no such verb"),
        }
    }

    /// Whether the document tells this, where it need not.
    fn tells(&self, name: &str) -> bool {
        self.expected.contains(name)
    }

    fn checked(&self) -> String {
        let mut marks = vec![MARK; self.marks];
        let answer = verdict(&check(&self.image(), &self.limits, &mut marks));
        self.with_marks(answer, &marks)
    }

    fn turned(&self) -> String {
        let mut marks = vec![MARK; self.marks];
        let answer = match turn(&self.image(), &self.limits, &mut marks) {
            Ok(Turn::Within(turn)) => format!("within {turn}"),
            Ok(Turn::None) => "none".to_string(),
            Ok(Turn::Over) => "over".to_string(),
            Err(why) => refused(&why),
        };
        self.with_marks(answer, &marks)
    }

    fn with_marks(&self, answer: String, marks: &[u16]) -> String {
        if !self.tells("marks=") {
            return answer;
        }
        let marks: Vec<String> = marks.iter().map(u16::to_string).collect();
        format!("{answer} marks={}", marks.join(","))
    }

    fn started(&self) -> String {
        let (mut memory, mut registers) = (self.memory.clone(), self.registers);
        let answer = start(&self.image(), &self.limits, &mut vec![MARK; self.marks], &mut memory, &mut registers);
        verdict(&answer) + &self.changes(&registers, &memory)
    }

    fn stepped(&self) -> String {
        let (mut memory, mut registers) = (self.memory.clone(), self.registers);
        let (answer, record) = step(&self.image(), &self.limits, &mut memory, &mut registers);
        let changes = self.changes(&registers, &memory);
        // Only a step that is refused for its memory cannot be gone back over.
        let back = step_back(&record, &mut memory, &mut registers);
        assert!(back.is_ok() == (memory.len() == MEMORY_BYTES) && registers == self.registers && memory == self.memory);
        let record = if self.tells("record=") { format!(" record={}", listed(&record)) } else { String::new() };
        match answer {
            Ok(Step::Made { cycles }) => format!("made{changes} cycles={cycles}{record}"),
            Ok(Step::Finished) => format!("finished{changes}{record}"),
            Ok(Step::Trapped(trap)) => format!("trap {}{changes}{record}", trap.number()),
            Err(refusal) => format!("refused {}{changes}{record}", refusal.number()),
        }
    }

    fn ran(&self) -> String {
        let (mut memory, mut registers) = (self.memory.clone(), self.registers);
        let answer = run(&self.image(), &self.limits, &mut memory, &mut registers, self.budget);
        let changes = self.changes(&registers, &memory);
        let Run { ending, steps, cycles, .. } = match answer {
            Ok(run) => run,
            Err(refusal) => return format!("refused {}{changes}", refusal.number()),
        };
        let ending = match ending {
            Ending::Finished => "finished".to_string(),
            Ending::Spent => "spent".to_string(),
            Ending::Trapped(trap) => format!("trap {}", trap.number()),
        };
        format!("{ending}{changes} steps={steps} cycles={cycles}")
    }

    fn saved(&self) -> String {
        match save(&self.registers, self.steps) {
            Ok(saved) => format!("saved {}", saved.to_bytes().map(|byte| format!("{byte:02X}")).concat()),
            Err(refusal) => format!("refused {}", refusal.number()),
        }
    }

    /// The bytes of the saved state: those that are given, or those of the registers and steps, by the document's table.
    fn state(&self) -> Vec<u8> {
        let Registers { a, x, y, cc, sp, pc } = self.registers;
        let word = u16::to_be_bytes;
        let laid_out = || {
            let steps = match self.sls {
                1 => u32::try_from(self.steps).expect("steps of version 0001").to_be_bytes().to_vec(),
                _ => self.steps.to_be_bytes().to_vec(),
            };
            let version = word(self.sls as u16);
            [b"SLS", &version[..], &word(pc as u16), &word(sp), &[a], &word(x), &word(y), &[cc], &steps].concat()
        };
        self.saved.clone().unwrap_or_else(laid_out)
    }

    fn resumed(&self) -> String {
        let (mut memory, mut marks) = (self.memory.clone(), vec![MARK; self.marks]);
        let answer = match resume(&self.image(), &self.limits, &mut marks, &mut memory, self.state(), self.budget) {
            Ok(resumed) => {
                let ending = if resumed.finished { "finished" } else { "spent" };
                let changes = self.changes(&resumed.registers, &memory);
                format!("{ending}{changes} steps={} cycles={}", resumed.steps, resumed.cycles)
            }
            Err(why) => {
                assert!(memory == self.memory);
                refused(&why)
            }
        };
        self.with_marks(answer, &marks)
    }

    fn gone_back(&self) -> String {
        let mut record = Record { registers: self.registers, count: self.count, ..Record::default() };
        for (byte, listed) in record.bytes.iter_mut().zip(self.bytes.split(' ')) {
            let (address, value) = listed.split_once(':').expect("an address and a value");
            *byte = Overwritten { address: number(address), value: number(value) as u8 };
        }
        let (mut memory, mut registers) = (self.memory.clone(), Registers::default());
        let answer = step_back(&record, &mut memory, &mut registers);
        let answer = answer.map_or_else(|refusal| format!("refused {}", refusal.number()), |()| "back".to_string());
        answer + &self.changes(&registers, &memory)
    }

    fn decoded(&self) -> String {
        match decode(&bytes(self.bytes), self.base) {
            Err(refusal) => format!("refused {}", refusal.number()),
            Ok(found) => {
                let cycles = found.cycles;
                format!("{} bytes, {}/{} cycles: {}", found.length, cycles.untaken, cycles.taken, found.text)
            }
        }
    }

    /// The registers and the bytes of memory that are not what they were.
    fn changes(&self, registers: &Registers, memory: &[u8]) -> String {
        let (before, after) = (self.registers, registers);
        let registers = [
            (before.a != after.a, format!(" A={:02X}", after.a)),
            (before.x != after.x, format!(" X={:04X}", after.x)),
            (before.y != after.y, format!(" Y={:04X}", after.y)),
            (before.cc != after.cc, format!(" CC={:02X}", after.cc)),
            (before.sp != after.sp, format!(" SP={:04X}", after.sp)),
            (before.pc != after.pc, format!(" PC={:04X}", after.pc)),
        ];
        let changed = memory.iter().enumerate().filter(|&(address, byte)| self.memory[address] != *byte);
        let bytes = changed.map(|(address, byte)| format!(" [{address:04X}]={byte:02X}"));
        registers.into_iter().filter(|(changed, _)| *changed).map(|(_, text)| text).chain(bytes).collect()
    }
}

fn listed(record: &Record) -> String {
    let bytes = record.bytes[..record.count as usize].iter();
    let listed: Vec<String> = bytes.map(|byte| format!("{:04X}:{:02X}", byte.address, byte.value)).collect();
    if listed.is_empty() {
        "none".to_string()
    } else {
        listed.join(",")
    }
}

/// The number of an outcome, 0 where it is neither a refusal nor a trap nor the end of a run nor why no turn is given.
fn number_of(outcome: &str) -> u32 {
    let mut words = outcome.split(' ');
    match words.next() {
        Some("refused" | "trap") => words.next().and_then(|number| number.parse().ok()).expect("a number"),
        Some("finished") => 64,
        Some("spent") => 65,
        Some("none") => 66,
        Some("over") => 67,
        _ => 0,
    }
}

/// The rows of the table of numbers: the number and its name.
fn numbers(text: &str) -> Vec<(u32, &str)> {
    let rows = text.lines().filter_map(|line| line.strip_prefix("| ")?.split_once(" | "));
    let numbered = rows.filter_map(|(number, rest)| Some((number.parse().ok()?, rest)));
    let named = numbered.map(|(number, rest)| (number, rest.split('|').next().unwrap_or("").trim()));
    named.filter(|(_, name)| name.is_empty() || name.starts_with("GATE_")).collect()
}

#[test]
fn cases_come_to_what_is_written() {
    let text = file("docs/FORMAT.md");
    let blocks = blocks(&text);
    let lines = blocks.iter().filter(|(kind, _)| *kind == "cases").flat_map(|(_, lines)| lines.lines());
    let mut met = BTreeSet::new();
    for line in lines {
        let case = Case::read(line);
        let outcome = case.outcome();
        assert_eq!(outcome, case.expected, "{line}");
        met.insert(number_of(&outcome));
    }
    // Each number of the table has an example, but for 18: the library's callers cannot encode.
    let written: BTreeSet<u32> = numbers(&text).into_iter().map(|(number, _)| number).filter(|&number| number != 18).collect();
    assert_eq!(met, written);
}

#[test]
fn names_are_those_of_the_header() {
    let (text, header) = (file("docs/FORMAT.md"), file("include/gate.h"));
    let constants = header.lines().filter_map(|line| line.trim().split_once(" = "));
    let named = constants.filter(|(name, _)| name.starts_with("GATE_"));
    let in_header: Vec<(u32, &str)> = named
        .map(|(name, rest)| (rest.split(|letter: char| !letter.is_ascii_digit()).next().unwrap_or(""), name))
        .map(|(digits, name)| (digits.parse().expect("a number"), name))
        .collect();
    let in_text: Vec<(u32, &str)> = numbers(&text).into_iter().filter(|(_, name)| !name.is_empty()).collect();
    assert_eq!(in_text, in_header);
}
