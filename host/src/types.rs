//! What goes into the loader and what it answers.

/// The memory that start, step, step back, run and resume are lent: addresses 0000 to 7FFF.
pub const MEMORY_BYTES: usize = 32_768;
/// The most code bytes of an image, so as many marks are enough for every image.
pub const MARKS_ENOUGH: usize = 4_096;
/// The cells of a text, its final 0 included.
pub const TEXT_BYTES: usize = 24;
/// The most routines of an image.
pub const ROUTINES: usize = 32;
/// The bytes of a saved state that is written; an old one, of version 0001, has 19.
pub const SAVED_BYTES: usize = 23;

/// Addresses, ends included. It has no default: one of zeros is byte 0000, and not [`Area::NONE`].
#[derive(Clone, Copy, Debug, PartialEq, Eq)]
#[repr(C)]
pub struct Area {
    /// The first address.
    pub low: u16,
    /// The last address.
    pub high: u16,
}

impl Area {
    /// No address at all, as a second grant may be.
    pub const NONE: Area = Area { low: 0xFFFF, high: 0x0000 };

    /// Whether it has no address: low is above high, whatever the values.
    ///
    /// ```
    /// use gate_host::Area;
    /// assert!(Area::NONE.is_empty());
    /// assert!(!Area { low: 0x0000, high: 0x0000 }.is_empty());
    /// ```
    pub const fn is_empty(self) -> bool {
        self.low > self.high
    }
}

/// The areas that a routine may write.
#[derive(Clone, Copy, Debug, PartialEq, Eq)]
#[repr(C)]
pub struct Limits {
    /// Where it may store.
    pub grant: Area,
    /// Where its stack lies.
    pub stack: Area,
    /// Another area where it may store; [`Area::NONE`], or any other that is empty, where there is no second grant.
    pub second: Area,
}

/// The CPU's registers. PC has 24 bits; 0 means that the routine has finished.
#[derive(Clone, Copy, Debug, Default, PartialEq, Eq)]
pub struct Registers {
    /// The accumulator.
    pub a: u8,
    /// The index register X.
    pub x: u16,
    /// The index register Y.
    pub y: u16,
    /// The flags: V, I1, H, I0, N, Z and C at bits 7, 5, 4, 3, 2, 1 and 0.
    pub cc: u8,
    /// The stack pointer: the address below the last byte pushed.
    pub sp: u16,
    /// The address of the next instruction.
    pub pc: u32,
}

/// A byte of memory that a step overwrote.
#[derive(Clone, Copy, Debug, Default, PartialEq, Eq)]
pub struct Overwritten {
    /// Where it lies.
    pub address: u32,
    /// What it held before.
    pub value: u8,
}

/// The record of a step: the registers before it and the bytes of memory that it overwrote, whether their values changed or not,
/// the lower address first.
///
/// One made by hand may count more bytes than there are, and have any addresses: stepping back refuses it then.
#[derive(Clone, Copy, Debug, Default, PartialEq, Eq)]
pub struct Record {
    /// The registers before the step.
    pub registers: Registers,
    /// How many of the bytes are meant. The others are not looked at, and are zeros where a step made the record.
    pub count: u32,
    /// The bytes that were overwritten.
    pub bytes: [Overwritten; 2],
}

/// Why an image, limits, lent memory, a record or a saved state were refused.
///
/// A later version of the library may refuse with more numbers, so a match needs an arm for all others.
#[derive(Clone, Copy, Debug, PartialEq, Eq)]
#[non_exhaustive]
#[repr(u8)]
pub enum Refusal {
    /// Limits break a rule.
    Limits = 1,
    /// Under 8 bytes, or not SLU.
    NotSlu = 2,
    /// The version is neither 0001 nor 0002.
    UnknownVersion = 3,
    /// Another rule of the layout is broken.
    Layout = 4,
    /// Fewer marks than code bytes.
    Marks = 5,
    /// A start is not reached.
    Unreached = 6,
    /// Depths disagree.
    DepthsDisagree = 7,
    /// Outside the set; in an image of version 0002 CALLR too.
    Outside = 8,
    /// The bytes end too soon.
    Truncated = 9,
    /// A jump into an instruction.
    IntoInstruction = 10,
    /// Depth leaves 0 to 255, or RET above 0.
    DepthRange = 11,
    /// A direct store not wholly in a grant, or an SP store outside 1 to the depth.
    Store = 12,
    /// A jump leaves its routine.
    Jump = 13,
    /// A call that is not to an earlier routine.
    Call = 14,
    /// Falls off its routine.
    FallsOff = 15,
    /// The stack area is below the need.
    Stack = 16,
    /// The memory is not 32,768 bytes.
    Memory = 17,
    /// A record of more than two bytes, or with one at an address above 7FFF.
    Record = 26,
    /// A saved state whose mark or version is wrong, or whose length is not its version's.
    NotSls = 34,
    /// A saved state that is not good; in saving, a PC above FFFF.
    NotGood = 35,
}

impl Refusal {
    const ALL: [Refusal; 20] = [
        Refusal::Limits,
        Refusal::NotSlu,
        Refusal::UnknownVersion,
        Refusal::Layout,
        Refusal::Marks,
        Refusal::Unreached,
        Refusal::DepthsDisagree,
        Refusal::Outside,
        Refusal::Truncated,
        Refusal::IntoInstruction,
        Refusal::DepthRange,
        Refusal::Store,
        Refusal::Jump,
        Refusal::Call,
        Refusal::FallsOff,
        Refusal::Stack,
        Refusal::Memory,
        Refusal::Record,
        Refusal::NotSls,
        Refusal::NotGood,
    ];

    /// Its number: 1 to 17, 26, 34 or 35.
    ///
    /// ```
    /// assert_eq!(gate_host::Refusal::Store.number(), 12);
    /// ```
    pub fn number(self) -> u8 {
        self as u8
    }

    /// The refusal of a number.
    ///
    /// ```
    /// use gate_host::Refusal;
    /// assert_eq!(Refusal::from_number(12), Some(Refusal::Store));
    /// assert_eq!(Refusal::from_number(25), None); // a trap
    /// ```
    pub fn from_number(number: u8) -> Option<Refusal> {
        Refusal::ALL.into_iter().find(|refusal| refusal.number() == number)
    }
}

/// Why a step was not made. A trap changes nothing.
///
/// The traps are those of the machine, which has no others, so a match may name all of them.
#[derive(Clone, Copy, Debug, PartialEq, Eq)]
#[repr(u8)]
pub enum Trap {
    /// SP is not from stack low - 1 to stack high.
    Sp = 21,
    /// PC is not in the code, or the bytes run out.
    Pc = 22,
    /// Outside the set; in version 0002 CALLR too.
    Outside = 23,
    /// SP would leave its range.
    Stack = 24,
    /// A direct store not wholly in a grant, or an SP store outside SP + 1 to stack high.
    Store = 25,
}

impl Trap {
    const ALL: [Trap; 5] = [Trap::Sp, Trap::Pc, Trap::Outside, Trap::Stack, Trap::Store];

    /// Its number: 21 to 25.
    ///
    /// ```
    /// assert_eq!(gate_host::Trap::Pc.number(), 22);
    /// ```
    pub fn number(self) -> u8 {
        self as u8
    }

    /// The trap of a number.
    ///
    /// ```
    /// use gate_host::Trap;
    /// assert_eq!(Trap::from_number(22), Some(Trap::Pc));
    /// assert_eq!(Trap::from_number(12), None); // a refusal
    /// ```
    pub fn from_number(number: u8) -> Option<Trap> {
        Trap::ALL.into_iter().find(|trap| trap.number() == number)
    }
}

/// What a check says of an image that it accepts.
#[derive(Clone, Copy, Debug, PartialEq, Eq)]
pub struct Accepted {
    /// The stack bytes that the routine needs.
    pub need: u16,
    /// The number of instruction starts.
    pub count: u16,
}

/// What a check, or a call that checks, says of an image that it refuses.
#[derive(Clone, Copy, Debug, PartialEq, Eq)]
pub struct Refused {
    /// Why.
    pub refusal: Refusal,
    /// From the first code byte; 0 for all but 6 to 15.
    pub offset: u16,
}

/// The turn of an image that is accepted: the steps within which it finishes, whatever A, X, Y, CC and memory it is started with.
#[derive(Clone, Copy, Debug, PartialEq, Eq)]
pub enum Turn {
    /// There is none: some jump goes to its own or a lower address.
    None,
    /// It is above 4,294,967,295. Runs one after another whose budgets add up to it finish.
    Over,
    /// It is this number, from 1 on. A run with at least so much budget finishes.
    Within(u32),
}

impl From<Refusal> for Refused {
    fn from(refusal: Refusal) -> Refused {
        Refused { refusal, offset: 0 }
    }
}

/// A step's answer.
#[derive(Clone, Copy, Debug, PartialEq, Eq)]
pub enum Step {
    /// Registers and memory are those after the instruction.
    Made {
        /// Those of the instruction.
        cycles: u64,
    },
    /// It began at PC 0, changed nothing, and took no cycles.
    Finished,
    /// It took no cycles.
    Trapped(Trap),
}

/// How a run ended.
#[derive(Clone, Copy, Debug, PartialEq, Eq)]
pub enum Ending {
    /// PC is 0.
    Finished,
    /// The budget is used up and PC is not 0.
    Spent,
    /// The next step traps.
    Trapped(Trap),
}

/// A run's answer.
#[derive(Clone, Copy, Debug, PartialEq, Eq)]
pub struct Run {
    /// How it ended.
    pub ending: Ending,
    /// The steps made, the trapping one not counted.
    pub steps: u32,
    /// The sum of those of the steps made.
    pub cycles: u64,
}

impl Run {
    /// Whether the routine has finished: false where the budget is used up, so that it can run on; a trap is an error.
    ///
    /// ```
    /// # use gate_host::{Ending, Run, Trap};
    /// let run = |ending| Run { ending, steps: 3, cycles: 6 };
    /// assert_eq!(run(Ending::Finished).finished(), Ok(true));
    /// assert_eq!(run(Ending::Spent).finished(), Ok(false));
    /// assert_eq!(run(Ending::Trapped(Trap::Pc)).finished(), Err(Trap::Pc));
    /// ```
    pub fn finished(&self) -> Result<bool, Trap> {
        match self.ending {
            Ending::Finished => Ok(true),
            Ending::Spent => Ok(false),
            Ending::Trapped(trap) => Err(trap),
        }
    }
}

/// A saved state: registers and steps as 23 bytes, SLS of version 0002. The memory is not in it, and is kept beside it.
///
/// [`save`](crate::save) makes one. One of other bytes may hold anything, and [`resume`](crate::resume) tests it. It can be handed to
/// whatever takes bytes, such as [`std::fs::write`]. An old one, 19 bytes of version 0001, is resumed as a slice and never made.
#[derive(Clone, Copy, Debug, PartialEq, Eq)]
pub struct SavedState([u8; SAVED_BYTES]);

impl SavedState {
    /// One of these bytes.
    ///
    /// ```
    /// # use gate_host::{Registers, SavedState};
    /// let saved = gate_host::save(&Registers::default(), 7)?;
    /// assert_eq!(SavedState::from_bytes(saved.to_bytes()), saved);
    /// # Ok::<(), gate_host::Refusal>(())
    /// ```
    pub const fn from_bytes(bytes: [u8; SAVED_BYTES]) -> SavedState {
        SavedState(bytes)
    }

    /// Its bytes.
    ///
    /// ```
    /// let saved = gate_host::save(&gate_host::Registers::default(), 0x0102_0304_0506_0708)?;
    /// assert_eq!((&saved.to_bytes()[..3], &saved.to_bytes()[15..]), (&b"SLS"[..], &[1, 2, 3, 4, 5, 6, 7, 8][..]));
    /// # Ok::<(), gate_host::Refusal>(())
    /// ```
    pub const fn to_bytes(self) -> [u8; SAVED_BYTES] {
        self.0
    }
}

impl AsRef<[u8]> for SavedState {
    fn as_ref(&self) -> &[u8] {
        &self.0
    }
}

/// A resumed run's answer. It has no trap: from a saved state that is good no accepted routine traps.
#[derive(Clone, Copy, Debug, PartialEq, Eq)]
pub struct Resumed {
    /// Whether PC is 0. Else it is spent: the budget is used up, or the total is 18,446,744,073,709,551,615.
    pub finished: bool,
    /// Those after the last step made.
    pub registers: Registers,
    /// The total: the saved state's, and those made since it was resumed.
    pub steps: u64,
    /// The sum of those of the steps made since it was resumed.
    pub cycles: u64,
}

/// An instruction's length, text and cycles.
#[derive(Clone, Copy, Debug, PartialEq, Eq)]
pub struct Decoded {
    /// The number of its bytes.
    pub length: usize,
    /// It in the manual's assembler notation.
    pub text: Text,
    /// What it costs.
    pub cycles: Cycles,
}

/// An instruction's cycles, as the manual's page prints them: where a jump is not taken and where it is, and the same figure twice
/// where one is printed. Wait states and pipeline stalls are not counted.
#[derive(Clone, Copy, Debug, PartialEq, Eq)]
pub struct Cycles {
    /// Where a jump is not taken.
    pub untaken: u8,
    /// Where it is.
    pub taken: u8,
}

/// A short ASCII text with zeros after it.
#[derive(Clone, Copy, PartialEq, Eq)]
pub struct Text(pub [u8; TEXT_BYTES]);

impl Text {
    /// The letters, without the zeros.
    ///
    /// ```
    /// let decoded = gate_host::decode(&[0xA6, 0x05], 0x8000)?;
    /// assert_eq!(decoded.text.as_str(), "LD A,#$05");
    /// # Ok::<(), gate_host::Refusal>(())
    /// ```
    pub fn as_str(&self) -> &str {
        let length = self.0.iter().position(|&byte| byte == 0).unwrap_or(TEXT_BYTES);
        std::str::from_utf8(&self.0[..length]).unwrap_or("")
    }
}

impl std::fmt::Debug for Text {
    fn fmt(&self, formatter: &mut std::fmt::Formatter<'_>) -> std::fmt::Result {
        write!(formatter, "{:?}", self.as_str())
    }
}

impl std::fmt::Display for Text {
    fn fmt(&self, formatter: &mut std::fmt::Formatter<'_>) -> std::fmt::Result {
        formatter.write_str(self.as_str())
    }
}
