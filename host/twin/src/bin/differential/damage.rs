//! Damage to images and limits, so that every refusal is met, and met beside others.

use crate::generator::Generator;
use crate::program::Case;
use crate::versions::{self, CALLR};
use gate_host::{Area, Limits};
use gate_twin::{self as twin, Instruction, Place, Target};

impl Generator<'_> {
    pub fn damage(&mut self, case: &mut Case) {
        case.known = None;
        case.shapes.clear();
        for _ in 0..self.random.pick(&[1, 1, 1, 2, 3]) {
            self.damage_once(case);
        }
    }

    fn damage_once(&mut self, case: &mut Case) {
        let table = 2 * usize::from(*case.image.get(7).unwrap_or(&0));
        let code = (8 + table).min(case.image.len());
        let length = case.image.len() - code;
        match self.random.below(26) {
            0..=3 if length > 0 => {
                let at = code + self.random.below(length);
                case.image[at] ^= 1 << self.random.below(8);
            }
            4..=5 if length > 0 => {
                let at = code + self.random.below(length);
                let opcodes = [0x81, 0x84, 0x88, 0x8E, 0x72, 0x90, 0x20, 0x21, 0x27, 0xCD, 0xAD, 0x9D, 0x55, 0x5B, 0x52];
                case.image[at] = self.random.pick(&opcodes);
            }
            6 if length > 0 => {
                let at = code + self.random.below(length);
                case.image[at] = self.random.byte();
            }
            7 => self.nudge(&mut case.image[code..]),
            8 => case.image.truncate(self.random.pick(&[code + length / 2, case.image.len().saturating_sub(1), code / 2, 7, 8])),
            // A file that is longer by 65,536 bytes looks the same to 16 bits.
            9 if self.random.one_in(8) => case.image.resize(case.image.len() + 0x1_0000, 0x9D),
            9 => case.image.push(self.random.byte()),
            10 => self.scramble_header(&mut case.image),
            11 if table >= 4 && length > 0 => self.move_bound(case, table / 2),
            12 if table >= 2 && length > 0 => {
                let at = 8 + 2 * self.random.below(table / 2);
                let length = self.random.pick(&[0, 1, 0x0FFF, 0x1000, 0x1001, 0xFFFF]);
                case.image[at..at + 2].copy_from_slice(&u16::to_be_bytes(length));
            }
            13 if case.image.len() >= 7 => {
                let top = 0u16.wrapping_sub(length as u16);
                let base = self.random.pick(&[0x7FFF, 0x8000, 0x8001, top.wrapping_sub(1), top, top.wrapping_add(1)]);
                case.image[5..7].copy_from_slice(&base.to_be_bytes());
            }
            14 if self.random.one_in(8) => case.marks = 0x1_0000,
            14 => case.marks = self.random.pick(&[0, length.saturating_sub(1), length, length + 1]),
            15..=16 => self.retarget(&mut case.image[code..]),
            17..=18 => self.readdress(&case.limits, &mut case.image[code..]),
            19 => self.deepen(&mut case.image[code..]),
            20..=21 => self.move_limit(&mut case.limits),
            22 => self.move_second(&mut case.limits),
            23 => versions::set_version(&mut case.image, self.neither_version()),
            24 => versions::set_version(&mut case.image, self.random.pick(&[1, 2])),
            _ => self.put_callr(&mut case.image),
        }
    }

    /// One byte of the header, or several at once, so that one refusal hides another.
    fn scramble_header(&mut self, image: &mut [u8]) {
        let several = self.random.one_in(3);
        let header = image.len().min(8);
        let chosen = self.random.below(8);
        for (at, byte) in image[..header].iter_mut().enumerate() {
            if at == chosen || several && at >= 3 && self.random.one_in(2) {
                *byte =
                    if self.random.one_in(2) { self.random.byte() } else { self.random.pick(&[0x00, 0x01, 0x02, 0x21, 0x80]) };
            }
        }
    }

    /// Some jump of sound code is made to go to another start, of whatever depth and routine, or a byte past the one that it goes
    /// to.
    fn retarget(&mut self, code: &mut [u8]) {
        let instructions = sweep(code);
        let jumps = instructions.iter().filter(|(_, instruction, _)| instruction.jump_offset().is_some());
        let nexts: Vec<usize> = jumps.map(|&(_, _, next)| next).collect();
        let Some(next) = self.random.pick_if_any(&nexts) else { return };
        if self.random.one_in(3) {
            code[next - 1] = code[next - 1].wrapping_add(1);
        } else {
            let near = instructions.iter().map(|&(start, ..)| start as isize - next as isize);
            let near: Vec<isize> = near.filter(|distance| (-128..=127).contains(distance)).collect();
            code[next - 1] = self.random.pick(&near) as u8;
        }
    }

    /// The last operand byte of some instruction of sound code goes up or down by one: a count, an offset into the stack, an
    /// address.
    fn nudge(&mut self, code: &mut [u8]) {
        let longer = sweep(code).into_iter().filter(|&(at, _, next)| next - at >= 2);
        let nexts: Vec<usize> = longer.map(|(_, _, next)| next).collect();
        if let Some(next) = self.random.pick_if_any(&nexts) {
            let change = self.random.pick(&[1, 0xFF]);
            code[next - 1] = code[next - 1].wrapping_add(change);
        }
    }

    /// The depth or stack offset of some instruction of sound code goes to a border.
    fn deepen(&mut self, code: &mut [u8]) {
        let on_stack = |instruction| {
            matches!(
                instruction,
                Instruction::SubSp(_)
                    | Instruction::AddSp(_)
                    | Instruction::StoreA(Place::Stack(_))
                    | Instruction::StoreWord(Place::Stack(_), _)
            )
        };
        let all = sweep(code).into_iter().filter(|&(_, instruction, _)| on_stack(instruction));
        let nexts: Vec<usize> = all.map(|(_, _, next)| next).collect();
        if let Some(next) = self.random.pick_if_any(&nexts) {
            let value = code[next - 1];
            code[next - 1] = self.random.pick(&[0, 0xFF, value.wrapping_add(1), value.wrapping_add(1), value.wrapping_sub(1)]);
        }
    }

    /// Some direct store of sound code gets another address.
    fn readdress(&mut self, limits: &Limits, code: &mut [u8]) {
        let is_direct = |instruction| {
            matches!(
                instruction,
                Instruction::StoreA(Place::Long(_))
                    | Instruction::StoreWord(Place::Long(_), _)
                    | Instruction::Modify(_, Target::Long(_))
                    | Instruction::Bit(..)
                    | Instruction::MoveImmediate { .. }
                    | Instruction::MoveLong { .. }
                    | Instruction::PopLong(_)
            )
        };
        let stores = sweep(code).into_iter().filter(|&(_, instruction, _)| is_direct(instruction));
        let nexts: Vec<usize> = stores.map(|(_, _, next)| next).collect();
        if let Some(next) = self.random.pick_if_any(&nexts) {
            code[next - 2..next].copy_from_slice(&self.grant_border(limits).to_be_bytes());
        }
    }

    /// The op-code of CALLR comes to some start of sound code, or to some routine's last byte.
    fn put_callr(&mut self, file: &mut [u8]) {
        let Ok(image) = twin::Image::parse(file) else { return };
        let places: Vec<usize> = if self.random.one_in(2) {
            sweep(image.code).into_iter().map(|(at, ..)| at).collect()
        } else {
            image.routines().map(|(_, end)| end - 1).collect()
        };
        let code = file.len() - image.code.len();
        if let Some(at) = self.random.pick_if_any(&places) {
            file[code + at] = CALLR;
        }
    }

    /// One routine's last bytes become the next one's first, or the other way round.
    fn move_bound(&mut self, case: &mut Case, routines: usize) {
        let at = 8 + 2 * self.random.below(routines - 1);
        let mut lengths = [0, 2].map(|next| u16::from_be_bytes([case.image[at + next], case.image[at + next + 1]]));
        let bytes = self.random.between(1, 3) as u16;
        let (from, to) = if self.random.one_in(2) { (0, 1) } else { (1, 0) };
        lengths[from] = lengths[from].wrapping_sub(bytes);
        lengths[to] = lengths[to].wrapping_add(bytes);
        case.image[at..at + 2].copy_from_slice(&lengths[0].to_be_bytes());
        case.image[at + 2..at + 4].copy_from_slice(&lengths[1].to_be_bytes());
    }

    /// One of the six limits goes elsewhere, most often to where another is.
    fn move_limit(&mut self, limits: &mut Limits) {
        let Limits { grant, stack, second } = limits;
        let ends = [*grant, *stack, *second].map(|area| [area.low, area.high]).concat();
        let value = match self.random.below(8) {
            0 => self.random.word(),
            1 => self.random.pick(&[0, 1, 0x00FF, 0x7FFE, 0x7FFF, 0x8000, 0xFFFF]),
            _ => self.random.pick(&ends).wrapping_add(self.random.between(0, 4) as u16).wrapping_sub(2),
        };
        let area = match self.random.below(3) {
            0 => grant,
            1 => stack,
            _ => second,
        };
        if self.random.one_in(2) {
            area.low = value;
        } else {
            area.high = value;
        }
    }

    /// The second grant comes to meet another area, by one byte or wholly, goes above 7FFF, or becomes none.
    fn move_second(&mut self, limits: &mut Limits) {
        let Limits { grant, stack, second } = *limits;
        let other = self.random.pick(&[grant, stack]);
        let more = self.random.below(4) as u16;
        limits.second = match self.random.below(6) {
            0 => Area { low: other.high, high: other.high.saturating_add(more) },
            1 => Area { low: other.low.saturating_sub(more), high: other.low },
            2 => other,
            3 => Area { low: second.low, high: self.random.pick(&[0x8000, 0xFFFF]) },
            4 => Area { low: 0x8000, high: 0x8000 + more },
            _ => self.no_second(grant, stack),
        };
    }
}

/// The instructions of code from its first byte on: the offset of each, itself, and the offset after it.
pub fn sweep(code: &[u8]) -> Vec<(usize, Instruction, usize)> {
    let mut instructions = Vec::new();
    let mut at = 0;
    while let Ok((instruction, length)) = twin::decode(&code[at..]) {
        instructions.push((at, instruction, at + length));
        at += length;
    }
    instructions
}
