//! Random images and limits.

use gate_host::{Area, Limits};
use gate_twin::random::Random;
use gate_twin::slu;

#[derive(Debug)]
pub struct Case {
    pub image: Vec<u8>,
    pub limits: Limits,
}

/// The case of a number, always the same.
pub fn case(number: u64) -> Case {
    let mut maker = Maker { random: Random::new(24, number), base: 0x8000, firsts: Vec::new(), code: Vec::new() };
    maker.base = maker.random.pick(&[0x8000, 0x8000, 0x9ABC, 0xFE00]);
    let tangled = maker.random.one_in(3);
    let image = maker.image(tangled);
    let image = match maker.random.below(3) {
        0 => image,
        1 => maker.damaged(image, 1),
        _ => maker.damaged(image, 3),
    };
    Case { image, limits: maker.limits() }
}

struct Maker {
    random: Random,
    base: u16,
    /// The offsets of the routines so far.
    firsts: Vec<usize>,
    code: Vec<u8>,
}

impl Maker {
    fn image(&mut self, tangled: bool) -> Vec<u8> {
        for _ in 0..self.random.pick(&[1, 1, 2, 3, 5]) {
            let first = self.code.len();
            if tangled {
                self.tangle();
            } else {
                self.block(3);
                self.code.push(0x81);
            }
            self.firsts.push(first);
        }
        let ends = self.firsts[1..].iter().copied().chain([self.code.len()]);
        let lengths: Vec<usize> = self.firsts.iter().zip(ends).map(|(first, end)| end - first).collect();
        slu::image(self.random.pick(&[1, 2, 2]), self.base, &lengths, &self.code)
    }

    /// Instructions that leave the depth as it was.
    fn block(&mut self, nested: usize) {
        for _ in 0..self.random.below(4) {
            match self.random.below(if nested == 0 { 3 } else { 8 }) {
                0..=1 => self.simple(),
                2 => self.call(),
                3..=4 => self.pushes(nested),
                5 => self.stack_bytes(nested),
                6 => self.branch(nested),
                _ => self.turns(nested),
            }
        }
    }

    /// LD A,#..; LD $..,A; LDW $....,X; INC A; PUSH and POP; NOP.
    fn simple(&mut self) {
        let byte = self.random.byte();
        let forms: [&[u8]; 6] = [&[0xA6, byte], &[0xB7, byte], &[0xCF, 0x00, byte & 0x7F], &[0x4C], &[0x88, 0x84], &[0x9D]];
        let form = self.random.pick(&forms);
        self.code.extend(form);
    }

    fn call(&mut self) {
        let Some(first) = self.random.pick_if_any(&self.firsts) else { return };
        let [high, low] = (self.base + first as u16).to_be_bytes();
        self.code.extend([0xCD, high, low]);
    }

    fn pushes(&mut self, nested: usize) {
        let (push, pop): (&[u8], &[u8]) = self.random.pick(&[(&[0x88], &[0x84]), (&[0x89], &[0x85]), (&[0x4B, 7], &[0x84])]);
        self.code.extend(push);
        self.block(nested - 1);
        self.code.extend(pop);
    }

    fn stack_bytes(&mut self, nested: usize) {
        let bytes = self.random.pick(&[1, 2, 5, 40, 120]);
        self.code.extend([0x52, bytes]);
        if self.random.one_in(2) {
            self.code.extend([0x6B, self.random.between(1, bytes.into()) as u8]);
        }
        self.block(nested - 1);
        self.code.extend([0x5B, bytes]);
    }

    /// A jump over a block.
    fn branch(&mut self, nested: usize) {
        let jump = self.code.len();
        self.code.extend([0x27, 0]);
        self.block(nested - 1);
        self.aim(jump + 2, self.code.len());
    }

    /// A loop.
    fn turns(&mut self, nested: usize) {
        let first = self.code.len();
        self.block(nested - 1);
        self.code.extend([0x26, 0]);
        self.aim(self.code.len(), first);
    }

    /// Lets the jump that ends at `next` go to `target`, or into nowhere if that is too far.
    fn aim(&mut self, next: usize, target: usize) {
        self.code[next - 1] = (target as isize - next as isize) as u8;
    }

    /// Jumps, pushes, pops, returns and calls in any order; each jump goes to some instruction of the routine.
    fn tangle(&mut self) {
        let (mut starts, mut jumps) = (Vec::new(), Vec::new());
        for _ in 0..self.random.between(1, 7) {
            starts.push(self.code.len());
            let byte = self.random.pick(&[1, 2, 100, 255]);
            let forms: [&[u8]; 10] = [
                &[0x27, 0],
                &[0x26, 0],
                &[0x20, 0],
                &[0x81],
                &[0x88],
                &[0x84],
                &[0x52, byte],
                &[0x5B, byte],
                &[0x6B, byte],
                &[0x9D],
            ];
            let form = self.random.pick(&forms);
            self.code.extend(form);
            if form[0] & 0xF0 == 0x20 {
                jumps.push(self.code.len());
            }
        }
        starts.push(self.code.len());
        self.code.push(0x81);
        for next in jumps {
            let target = self.random.pick(&starts);
            self.aim(next, target);
        }
    }

    /// An image with a few bytes changed, or cut short, or with a byte more.
    fn damaged(&mut self, mut image: Vec<u8>, times: usize) -> Vec<u8> {
        for _ in 0..self.random.between(1, times) {
            let header = 8 + 2 * self.firsts.len();
            match self.random.below(12) {
                0 => image.truncate(self.random.below(image.len() + 1)),
                1 => image.push(self.random.byte()),
                2 if !image.is_empty() => {
                    let place = self.random.below(image.len().min(header));
                    image[place] = self.random.pick(&[0, 1, 2, 3, 0x80]);
                }
                3 if image.len() > 9 => self.move_border(&mut image),
                _ if image.len() > header => {
                    let place = self.random.between(header, image.len() - 1);
                    image[place] = match self.random.below(3) {
                        0 => self.random.byte(),
                        1 => self.random.pick(&[0x20, 0x81, 0x88, 0x84, 0x27, 0xAD, 0xCD, 0x72, 0xB7, 0xCF]),
                        _ => image[place].wrapping_add(self.random.pick(&[1, 2, 255, 254])),
                    };
                }
                _ => {}
            }
        }
        image
    }

    /// A byte goes from the last routine to the one before it, or the file no longer ends with the code.
    fn move_border(&mut self, image: &mut [u8]) {
        let last = 8 + 2 * self.firsts.len() - 1;
        if last < image.len() && self.firsts.len() > 1 {
            image[last - 2] = image[last - 2].wrapping_add(1);
            image[last] = image[last].wrapping_sub(1);
        }
    }

    fn limits(&mut self) -> Limits {
        let area = |low, high| Area { low, high };
        let grant = self.random.pick(&[area(0x0000, 0x00FF), area(0x0000, 0x00FF), area(0x0000, 0x007F), area(0x0010, 0x00E0)]);
        let second = self.random.pick(&[Area::NONE, Area::NONE, area(0x4000, 0x401F), area(0x0100, 0x01FF)]);
        let bytes = self.random.pick(&[1, 2, 4, 8, 64, 256, 256, 1024, 1024]);
        let stack = area(0x0300, 0x02FF + bytes);
        let good = Limits { grant, stack, second };
        if !self.random.one_in(12) {
            return good;
        }
        // Any areas, often ones that just meet or leave the memory.
        let ends = [0x0000, 0x0001, 0x00FF, 0x0100, 0x02FF, 0x0300, 0x03FF, 0x7FFF, 0x8000, self.random.word()];
        let mut any = || area(self.random.pick(&ends), self.random.pick(&ends));
        let any = [any(), any(), any()];
        Limits {
            grant: if self.random.one_in(2) { grant } else { any[0] },
            stack: if self.random.one_in(2) { stack } else { any[1] },
            second: if self.random.one_in(2) { second } else { any[2] },
        }
    }
}
