//! The layout of an image, by the library and by the twin, where the numbers of a header are at their borders and one beyond.

use gate_host::{Layout, Refusal};
use gate_twin::{self as twin, slu};

const VERSIONS: [u16; 6] = [0x0000, 0x0001, 0x0002, 0x0003, 0x0100, 0x0201];
const BASES: [u16; 6] = [0x0000, 0x7FFF, 0x8000, 0xEFFF, 0xF000, 0xFFFF];

/// How often each of 0 (a layout), 2, 3 and 4 was answered.
type Met = [u32; 5];

fn parts(layout: Layout<'_>) -> (u16, u32, Vec<u8>, Vec<(usize, usize)>, usize) {
    let routines = layout.routines().map(|routine| (routine.start, routine.end)).collect();
    (layout.version, layout.base.into(), layout.code.to_vec(), routines, usize::from(layout.main() - layout.base))
}

fn compare(file: &[u8], met: &mut Met) {
    let library = gate_host::layout(file).map(parts);
    let twin = twin::Image::parse(file)
        .map(|image| (image.version, image.base, image.code.to_vec(), image.routines().collect::<Vec<_>>(), image.main()));
    assert_eq!(library, twin, "{:02X?}", &file[..file.len().min(80)]);
    met[library.map_or_else(Refusal::number, |_| 0) as usize] += 1;
}

/// Tables of lengths: few and many, none, one of 0, and sums at the most code bytes, at 65,536 and beyond.
fn tables() -> Vec<Vec<usize>> {
    let mut tables: Vec<Vec<usize>> = [0, 1, 2, 31, 32, 33, 128, 255].iter().map(|&count| vec![1; count]).collect();
    let others: [&[usize]; 9] =
        [&[0], &[3, 0, 2], &[4_096], &[4_097], &[1, 4_095], &[4_095, 1, 1], &[128; 32], &[0xFFFF, 2], &[0x8000, 0x8000]];
    tables.extend(others.map(Vec::from));
    tables
}

#[test]
fn layouts_agree() {
    let mut met = Met::default();
    for lengths in tables() {
        let sum = lengths.iter().sum::<usize>();
        for code in [sum, sum + 1, sum.saturating_sub(1), sum % 0x1_0000] {
            for (version, base) in VERSIONS.iter().flat_map(|&version| BASES.map(|base| (version, base))) {
                let file = slu::image(version, base, &lengths, &vec![0x9D; code]);
                compare(&file, &mut met);
                (0..12.min(file.len())).for_each(|cut| compare(&file[..cut], &mut met));
                (0..3).for_each(|at| compare(&[&file[..at], b"?", &file[at + 1..]].concat(), &mut met));
            }
        }
    }
    assert!([0, 2, 3, 4].iter().all(|&number| met[number] > 0), "{met:?}");
}
