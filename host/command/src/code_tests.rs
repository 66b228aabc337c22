use super::{Code, Flow, Start, Store};
use gate_host::{step, Area, Limits, Refusal, Registers, Step, MEMORY_BYTES};
use gate_twin::slu;

const LIMITS: Limits =
    Limits { grant: Area { low: 0x0000, high: 0x6FFF }, stack: Area { low: 0x7000, high: 0x7FFF }, second: Area::NONE };

/// Where RET returns to in the steps below.
const RETURN: u16 = 0x5566;

/// Every op-code of the set, with operand bytes after it.
fn instructions() -> impl Iterator<Item = Vec<u8>> {
    let pages: [&[u8]; 3] = [&[], &[0x72], &[0x90]];
    let every = pages.into_iter().flat_map(|page| (0..=255).map(move |last| [page, &[last, 0x10, 0x20, 0x30, 0x40]].concat()));
    every.filter(|bytes| gate_host::decode(bytes, 0x8000).is_ok())
}

#[test]
fn what_texts_say_is_what_steps_do() {
    let mut seen = 0;
    for bytes in instructions() {
        let image = slu::image_of(1, 0x8000, &[&bytes]);
        let code = Code::read(&image).unwrap();
        let start = code.routines[0].starts[0];
        for cc in [0x00, 0xFF, 0x02, 0x04, 0x80] {
            compare_with_step(&image, &start, cc);
        }
        seen += 1;
    }
    assert!(seen > 250, "only {seen} op-codes");
}

fn compare_with_step(image: &[u8], start: &Start, cc: u8) {
    let mut memory = vec![0; MEMORY_BYTES];
    memory[0x7801..0x7803].copy_from_slice(&RETURN.to_be_bytes());
    let before = Registers { a: 1, x: 2, y: 3, cc, sp: 0x7800, pc: 0x8000 };
    let mut after = before;
    let (answer, record) = step(image, &LIMITS, &mut memory, &mut after);
    assert!(matches!(answer, Ok(Step::Made { .. })), "{}: {answer:?}", start.text);

    let next = start.address + start.bytes.len() as u16;
    let (targets, called) = match start.flow {
        Flow::Falls => (vec![next], 0),
        Flow::Branches(target) => (vec![next, target], 0),
        Flow::Jumps(target) => (vec![target], 0),
        Flow::Calls(target) => (vec![target], 2),
        Flow::Returns => (vec![RETURN], -2),
    };
    assert!(targets.iter().any(|&target| u32::from(target) == after.pc), "{}: to {:X}", start.text, after.pc);
    assert_eq!(i32::from(before.sp) - i32::from(after.sp), start.pushed + called, "{}", start.text);

    let stored = record.bytes[..record.count as usize].iter().map(|byte| byte.address);
    match start.store {
        Some(store) => {
            let (first, bytes) = match store {
                Store::Direct { address, bytes } => (address, bytes),
                Store::Stack { offset, bytes } => (before.sp + u16::from(offset), bytes),
            };
            assert!(stored.eq(u32::from(first)..u32::from(first + bytes)), "{}", start.text);
        }
        None => {
            let pushed = u32::from(after.sp) + 1..u32::from(before.sp) + 1;
            assert!(stored.into_iter().all(|address| pushed.contains(&address)), "{}", start.text);
        }
    }
}

/// The texts of a routine's starts, and the refusal that ends its reading.
fn read(version: u16, routine: &[u8]) -> (Vec<String>, Option<(usize, Refusal)>) {
    let image = slu::image_of(version, 0x8000, &[&[0x81], routine]);
    let code = Code::read(&image).unwrap();
    let texts = code.routines[1].starts.iter().map(|start| format!("{:04X} {}", start.address, start.text));
    (texts.collect(), code.routines[1].stuck.map(|stuck| (stuck.offset, stuck.refusal)))
}

#[test]
fn a_routine_is_read_up_to_its_end() {
    assert_eq!(read(2, &[0xA6, 0x05, 0x27, 0xFD, 0x81]).0, ["8001 LD A,#$05", "8003 JREQ $8002", "8005 RET"]);
    assert_eq!(read(2, &[0x9D, 0x8E, 0x81]), (vec!["8001 NOP".into()], Some((2, Refusal::Outside))));
    assert_eq!(read(2, &[0x9D, 0xA6]), (vec!["8001 NOP".into()], Some((2, Refusal::Truncated))));
}

#[test]
fn callr_is_of_version_0001_alone() {
    assert_eq!(read(1, &[0xAD, 0xFD, 0x81]).0, ["8001 CALLR $8000", "8003 RET"]);
    assert_eq!(read(1, &[0xAD]).1, Some((1, Refusal::Truncated)));
    assert_eq!(read(2, &[0xAD, 0xFD, 0x81]).1, Some((1, Refusal::Outside)));
    assert_eq!(read(2, &[0xAD]).1, Some((1, Refusal::Outside)));
}

#[test]
fn bytes_are_found_by_address_and_offset() {
    let image = slu::image_of(2, 0x8000, &[&[0xA6, 0x05, 0x81][..], &[0x81]]);
    let code = Code::read(&image).unwrap();
    assert_eq!([0x7FFF, 0x8000, 0x8003, 0x8004].map(|address| code.offset(address)), [None, Some(0), Some(3), None]);
    assert_eq!([0, 2, 3, 4].map(|offset| code.routine_of(offset)), [Some(0), Some(0), Some(1), None]);
    assert_eq!((code.routines[0].start_at(1), code.routines[0].start_over(1)), (None, Some(0)));
    assert_eq!((code.routines[0].start_at(2), code.routines[0].start_over(2)), (Some(1), Some(1)));
}
