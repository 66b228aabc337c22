//! The layout of an image: every cell, accepted and refused, and what check and start say of the same image.

use gate_host::cells::{self, LayoutCells};
use gate_host::{Area, Limits, Refusal, Refused, Registers, MEMORY_BYTES, ROUTINES};

const LIMITS: Limits =
    Limits { grant: Area { low: 0x0000, high: 0x00FF }, stack: Area { low: 0x0300, high: 0x03FF }, second: Area::NONE };
const RET: u8 = 0x81;

/// An image of routines that do nothing but return: so many NOP before RET in each.
fn image(version: u16, base: u16, nops: &[usize]) -> Vec<u8> {
    let mut image = [b"SLU", &version.to_be_bytes()[..], &base.to_be_bytes(), &[nops.len() as u8]].concat();
    nops.iter().for_each(|&nops| image.extend((nops as u16 + 1).to_be_bytes()));
    nops.iter().for_each(|&nops| image.extend([vec![0x9D; nops], vec![RET]].concat()));
    image
}

/// The answer, and the cells, of which none was 0 before.
fn layout(image: &[u8]) -> (u8, LayoutCells) {
    let blank = 0xA5A5;
    let mut cells =
        LayoutCells { version: blank, base: blank, routines: blank, code: blank, size: blank, begins: [blank; ROUTINES] };
    (cells::layout(image, &mut cells), cells)
}

fn begins(routines: &[u16]) -> [u16; ROUTINES] {
    let mut begins = [0; ROUTINES];
    begins[..routines.len()].copy_from_slice(routines);
    begins
}

#[test]
fn every_cell_is_written() {
    let expected = LayoutCells { version: 1, base: 0x8000, routines: 1, code: 10, size: 1, begins: begins(&[0]) };
    assert_eq!(layout(&image(1, 0x8000, &[0])), (cells::OK, expected));
    let expected = LayoutCells { version: 2, base: 0xFFF9, routines: 3, code: 14, size: 7, begins: begins(&[0, 2, 6]) };
    assert_eq!(layout(&image(2, 0xFFF9, &[1, 3, 0])), (cells::OK, expected));
    let expected = LayoutCells { version: 2, base: 0xF000, routines: 2, code: 12, size: 4_096, begins: begins(&[0, 4_095]) };
    assert_eq!(layout(&image(2, 0xF000, &[4_094, 0])), (cells::OK, expected));
}

#[test]
fn an_image_has_up_to_32_routines() {
    let nops: Vec<usize> = (0..ROUTINES).collect();
    let (number, cells) = layout(&image(1, 0x8000, &nops));
    assert_eq!((number, cells.routines, cells.code, cells.size), (cells::OK, 32, 72, 528));
    let triangular = |number: u16| number * (number + 1) / 2;
    assert_eq!(cells.begins.to_vec(), (0..32).map(triangular).collect::<Vec<_>>());
    assert_eq!(layout(&image(1, 0x8000, &[0; ROUTINES + 1])), (4, LayoutCells::default()));
}

#[test]
fn refused_every_cell_is_0() {
    let good = image(1, 0x8000, &[2, 1]);
    let changed = |at: usize, byte: u8| [&good[..at], &[byte], &good[at + 1..]].concat();
    let refused = |image: &[u8]| {
        let (number, cells) = layout(image);
        assert_eq!(cells, LayoutCells::default());
        assert_eq!(gate_host::layout(image).unwrap_err().number(), number);
        number
    };
    assert_eq!([&[][..], b"SLU\x00\x01\x80\x00", &changed(0, b's'), &changed(2, b'V')].map(refused), [2; 4]);
    assert_eq!([changed(3, 1), changed(4, 0), changed(4, 3)].map(|image| refused(&image)), [3; 3]);
    let base_and_code_pass_the_end = image(1, 0xFFFC, &[2, 1]);
    let too_long = image(1, 0x8000, &[4_095, 0]);
    for image in
        [changed(5, 0x7F), changed(7, 0), changed(7, 255), changed(9, 0), changed(9, 2), base_and_code_pass_the_end, too_long]
    {
        assert_eq!(refused(&image), 4, "{:02X?}", &image[..8]);
    }
    assert_eq!([&good[..8], &good[..good.len() - 1], &[&good[..], &[RET]].concat()].map(refused), [4; 3]);
    assert_eq!(refused(&[&changed(4, 3)[..8], b""].concat()), 3, "a version comes before the layout");
    assert_eq!(refused(b"slu\x00\x03\x00\x00\x00"), 2, "and SLU before both");
}

/// A check wants a mark for each code byte, and each routine's first byte is a start at depth 0; a start goes to main.
#[test]
fn check_and_start_go_by_the_same_layout() {
    for nops in [&[0][..], &[3, 0, 2], &[1; ROUTINES]] {
        let image = image(2, 0x9000, nops);
        let layout = gate_host::layout(&image).expect("a good layout");
        assert_eq!((layout.version, layout.base, layout.routines().len()), (2, 0x9000, nops.len()));
        assert!(image.ends_with(layout.code));
        let mut marks = vec![0; layout.code.len()];
        let too_few = gate_host::check(&image, &LIMITS, &mut marks[1..]);
        assert_eq!(too_few, Err(Refused { refusal: Refusal::Marks, offset: 0 }));
        let (mut memory, mut registers) = (vec![0; MEMORY_BYTES], Registers::default());
        gate_host::start(&image, &LIMITS, &mut marks, &mut memory, &mut registers).expect("accepted");
        assert_eq!(registers.pc, layout.main().into());
        for (routine, &nops) in layout.routines().zip(nops) {
            assert_eq!((marks[routine.start], routine.len()), (1, nops + 1));
            assert_eq!(layout.code[routine].last(), Some(&RET));
        }
    }
}
