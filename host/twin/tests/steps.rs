//! The twin's steps against those that were recorded from a simulator, 32 for each of the 260 op-codes, and back over each.

use gate_host::{Area, Limits, Registers, Step, MEMORY_BYTES};
use gate_twin::{self as twin, slu};
use std::fs;
use std::path::Path;

const RECORD: usize = 46;
const LIMITS: Limits =
    Limits { grant: Area { low: 0x0000, high: 0x14FF }, stack: Area { low: 0x1600, high: 0x17FF }, second: Area::NONE };

fn word(bytes: &[u8]) -> u16 {
    u16::from_be_bytes([bytes[0], bytes[1]])
}

/// A, X, Y, CC, SP and PC, as a record has them.
fn registers(bytes: &[u8]) -> Registers {
    Registers {
        a: bytes[0],
        x: word(&bytes[1..]),
        y: word(&bytes[3..]),
        cc: bytes[5],
        sp: word(&bytes[6..]),
        pc: u32::from_be_bytes([0, bytes[8], bytes[9], bytes[10]]),
    }
}

/// The cells that a record has: an address and a byte each, address FFFF where there is none.
fn cells(bytes: &[u8]) -> impl Iterator<Item = (usize, u8)> + '_ {
    bytes.chunks_exact(3).map(|cell| (usize::from(word(cell)), cell[2])).filter(|&(address, _)| address != 0xFFFF)
}

fn image_of(record: &[u8]) -> Vec<u8> {
    slu::image_of(1, word(&record[15..]), &[&record[1..1 + usize::from(record[0])]])
}

#[test]
fn recorded_steps() {
    let file = Path::new(env!("CARGO_MANIFEST_DIR")).join("../../crates/recorded_steps/data/steps.bin");
    let records = fs::read(&file).expect("the recorded steps");
    assert_eq!(records.len(), 8_320 * RECORD);
    for (number, record) in records.chunks_exact(RECORD).enumerate() {
        let mut memory = vec![0; MEMORY_BYTES];
        for (address, byte) in cells(&record[17..29]) {
            memory[address] = byte;
        }
        let mut expected = memory.clone();
        for (address, byte) in cells(&record[40..46]) {
            expected[address] = byte;
        }
        let (before, given) = (memory.clone(), registers(&record[6..]));
        let mut after = given;
        let (answer, made) = twin::step(&image_of(record), &LIMITS, &mut memory, &mut after);
        assert!(matches!(answer, Ok(Step::Made { .. })), "record {number}: {answer:?}, {record:02X?}");
        assert_eq!(after, registers(&record[29..]), "record {number}: {record:02X?}");
        assert!(memory == expected, "memory after record {number}: {record:02X?}");
        let back = twin::step_back(&made, &mut memory, &mut after);
        assert!(back == Ok(()) && after == given && memory == before, "step back over record {number}: {record:02X?}");
    }
    println!("{} recorded steps: no difference", records.len() / RECORD);
}
