//! The library and the twin over many images, limits, marks, registers, memories and budgets: no cell may differ.
//!
//!     differential [--seed S] [--checks N] [--steps N] [--case K]
//!
//! Cases are made until at least N checks were compared, and N single steps that were made. A difference prints the seed, the
//! case and both answers, and `--seed S --case K` makes that case again. The exit status is 1 where something differs, or where
//! some answer, or something that W-201, W-202, W-205, W-206, W-208, W-209, W-210 or W-212 decides on, was never met, a second grant
//! in less than half of the cases, or a version in less than a third.

mod back;
mod compare;
mod cycles;
mod damage;
mod flow;
mod frames;
mod generator;
mod limits;
mod memories;
mod met;
mod nested;
mod not_sls;
mod pair;
mod pauses;
mod program;
mod records;
mod resumes;
mod saved;
mod shape;
mod stretch;
mod totals;
mod trial;
mod turns;
mod versions;

use compare::{Answers, Tally};
use gate_host::cells::{FINISHED, NO_TURN, OK, OVER, SPENT};
use gate_twin::random;
use generator::Template;
use limits::Second;
use program::Case;
use random::Random;
use shape::Shape;
use std::env;
use std::process::exit;
use std::time::Instant;
use trial::Trial;
use versions::Versions;

struct Options {
    seed: u64,
    checks: u64,
    steps: u64,
    case: Option<u64>,
}

fn options() -> Option<Options> {
    let mut options = Options { seed: 20_261_115, checks: 100_000, steps: 1_000_000, case: None };
    let mut words = env::args().skip(1);
    while let Some(word) = words.next() {
        let number = words.next()?.parse().ok()?;
        match word.as_str() {
            "--seed" => options.seed = number,
            "--checks" => options.checks = number,
            "--steps" => options.steps = number,
            "--case" => options.case = Some(number),
            _ => return None,
        }
    }
    Some(options)
}

fn main() {
    let Some(options) = options() else {
        eprintln!("usage: differential [--seed S] [--checks N] [--steps N] [--case K]");
        exit(2);
    };
    let templates = generator::templates();
    let mut tally = Tally::new();
    if let Some(case) = options.case {
        one_case(&options, case, &templates, &mut tally);
        println!("case {case} of seed {}: no difference", options.seed);
        return;
    }
    let begun = Instant::now();
    let mut cases = 0;
    every_opcode(&options, &mut tally);
    while tally.check.total() < options.checks || tally.step.times(OK) < options.steps {
        one_case(&options, cases, &templates, &mut tally);
        cases += 1;
    }
    let lacking = print(&options, cases, &templates, &tally);
    println!("{:.1} s", begun.elapsed().as_secs_f64());
    if lacking {
        exit(1);
    }
    println!("no difference");
}

fn differs(options: &Options, case: &str, description: &str) -> ! {
    println!("DIFFERENCE: seed {}, case {case}\n{description}", options.seed);
    exit(1);
}

/// Every pair of first bytes, cut at every length, and some with more bytes after them than 16 bits can count.
fn every_opcode(options: &Options, tally: &mut Tally) {
    let mut random = Random::new(options.seed, u64::MAX);
    let mut long = vec![0; 0x1_0004];
    random.fill(&mut long);
    for pair in 0..=u16::MAX {
        let tail = random.next().to_be_bytes();
        let bytes = [&pair.to_be_bytes(), &tail[..4]].concat();
        for length in 0..=bytes.len() {
            let compared = compare::decode(&bytes[..length], random.word(), tally);
            compared.unwrap_or_else(|description| differs(options, "none (every pair of bytes)", &description));
        }
        if pair % 256 == 0 {
            let bytes = &long[usize::from(pair / 256) % 5..];
            let compared = compare::decode(&bytes[..0x1_0000.min(bytes.len())], random.word(), tally);
            compared.unwrap_or_else(|description| differs(options, "none (many bytes)", &description));
        }
    }
}

fn one_case(options: &Options, number: u64, templates: &[Template], tally: &mut Tally) {
    let mut random = Random::new(options.seed, number);
    let mut trial = Trial::new(&mut random, templates, tally);
    if let Err(description) = trial.whole() {
        let Case { image, limits, marks, .. } = &trial.case;
        let inputs = format!("{limits:04X?}\n{marks} marks, image {image:02X?}\n{}", trial.call);
        differs(options, &number.to_string(), &format!("{description}\n{inputs}"));
    }
}

/// Prints the counts, and says whether something was never met, or second grants or a version too seldom.
fn print(options: &Options, cases: u64, templates: &[Template], tally: &Tally) -> bool {
    println!("seed {}, {cases} cases", options.seed);
    let mut missing = false;
    missing |= row("layout", &tally.layout, [OK, 2, 3, 4]);
    missing |= row("check", &tally.check, 0..=16);
    missing |= row("turn", &tally.turn, (0..=16).chain([NO_TURN, OVER]));
    missing |= row("start", &tally.start, 0..=17);
    missing |= row("step", &tally.step, [OK, 1, 2, 3, 4, 17, 21, 22, 23, 24, 25, FINISHED]);
    missing |= row("step back", &tally.step_back, [OK, 17, 26]);
    missing |= row("run", &tally.run, [1, 2, 3, 4, 17, 21, 22, 23, 24, 25, FINISHED, SPENT]);
    missing |= row("save", &tally.save, [OK, 35]);
    missing |= row("resume", &tally.resume, (1..=17).chain([34, 35, FINISHED, SPENT]));
    missing |= row("decode", &tally.decode, [OK, 8, 9]);
    for (shape, times) in Shape::ALL.iter().zip(tally.shapes) {
        println!("images with {}: {times}", shape.name());
        missing |= times == 0;
    }
    missing |= tally.second.print();
    missing |= tally.versions.print();
    missing |= tally.timing.print();
    missing |= tally.records.print();
    missing |= tally.turns.print();
    missing |= tally.resumes.print();
    missing |= tally.totals.print();
    for (version, met) in ["0001", "0002"].into_iter().zip(&tally.not_sls) {
        println!("refused with 34, made from saved states of version {version}, for");
        missing |= met.print();
    }
    let [pc, bytes, call] = tally.trap_22;
    println!("trap 22 of steps: PC {pc}, bytes {bytes}, call before 10000 {call}");
    println!("steps made in runs: {}", tally.run_steps);
    println!("op-codes of which a step was made: {} of {}", tally.opcodes_met(), templates.len());
    missing |= tally.trap_22.contains(&0) || tally.opcodes_met() < templates.len();
    if missing {
        println!("NEVER MET: see the counts of 0 above");
    }
    missing | is_seldom(cases, tally)
}

/// Says whether less than half of the cases have a second grant, or less than a third one of the versions.
fn is_seldom(cases: u64, tally: &Tally) -> bool {
    let second = 2 * tally.second.times(Second::Present) < cases;
    if second {
        println!("TOO SELDOM MET: less than half of the cases have a second grant");
    }
    let version = [Versions::Case0001, Versions::Case0002].into_iter().any(|version| 3 * tally.versions.times(version) < cases);
    if version {
        println!("TOO SELDOM MET: less than a third of the cases have one of the versions");
    }
    second || version
}

/// Prints one function's counts, and says whether one of the numbers that it can answer was never met.
fn row(name: &str, answers: &Answers, numbers: impl IntoIterator<Item = u8>) -> bool {
    let mut missing = false;
    let mut counts = Vec::new();
    for number in numbers {
        let times = answers.times(number);
        missing |= times == 0;
        counts.push(match number {
            OK => format!("ok {times}"),
            FINISHED => format!("finished {times}"),
            SPENT => format!("spent {times}"),
            NO_TURN => format!("none {times}"),
            OVER => format!("over {times}"),
            _ => format!("{number}: {times}"),
        });
    }
    println!("{name}: {} calls; {}", answers.total(), counts.join(", "));
    missing
}
