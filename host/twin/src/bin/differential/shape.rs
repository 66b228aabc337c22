//! What is to be met of images whose answer is known by construction.

/// Control flow that decides what W-202 answers, and where CALLR stands.
#[derive(Clone, Copy, PartialEq)]
pub enum Shape {
    BottomLoop,
    IslandToItself,
    IslandIntoReached,
    PushingLoop,
    PoppingLoop,
    CrossJump,
    Apart65536,
    Below0,
    Above255,
    FromAbove,
    AgreeBeyond16Bits,
    Callr,
    CallrCutShort,
    CallrFallsOff,
}

impl Shape {
    pub const ALL: [Shape; 14] = [
        Shape::BottomLoop,
        Shape::IslandToItself,
        Shape::IslandIntoReached,
        Shape::PushingLoop,
        Shape::PoppingLoop,
        Shape::CrossJump,
        Shape::Apart65536,
        Shape::Below0,
        Shape::Above255,
        Shape::FromAbove,
        Shape::AgreeBeyond16Bits,
        Shape::Callr,
        Shape::CallrCutShort,
        Shape::CallrFallsOff,
    ];

    pub fn name(self) -> &'static str {
        match self {
            Shape::BottomLoop => "loops tested at the bottom",
            Shape::IslandToItself => "islands that jump to themselves",
            Shape::IslandIntoReached => "islands that jump into reached code",
            Shape::PushingLoop => "loops that push",
            Shape::PoppingLoop => "loops that pop",
            Shape::CrossJump => "jumps to another depth",
            Shape::Apart65536 => "depths apart by 65,536 or a multiple",
            Shape::Below0 => "depths below 0",
            Shape::Above255 => "depths above 255",
            Shape::FromAbove => "depths that leave their range at a higher address first",
            Shape::AgreeBeyond16Bits => "paths that agree beyond 16 bits",
            Shape::Callr => "CALLR, refused in version 0002",
            Shape::CallrCutShort => "CALLR, cut short in version 0001",
            Shape::CallrFallsOff => "CALLR, falling off in version 0001",
        }
    }

    /// The number that a routine is refused with for it, 0 if it is accepted.
    pub fn answer(self) -> u8 {
        match self {
            Shape::BottomLoop => 0,
            Shape::IslandToItself | Shape::IslandIntoReached => 6,
            Shape::PushingLoop | Shape::PoppingLoop | Shape::CrossJump | Shape::Apart65536 => 7,
            Shape::Callr => 8,
            Shape::CallrCutShort => 9,
            Shape::Below0 | Shape::Above255 | Shape::FromAbove | Shape::AgreeBeyond16Bits => 11,
            Shape::CallrFallsOff => 15,
        }
    }
}
