//! The layout of an image, as a loader asks for it.

use crate::cells::{self, LayoutCells};
use crate::types::{Refusal, ROUTINES};
use std::ops::Range;

/// Where the parts of an image are.
#[derive(Clone, Copy, Debug, PartialEq, Eq)]
pub struct Layout<'a> {
    /// 1 or 2.
    pub version: u16,
    /// The address of the first code byte.
    pub base: u16,
    /// The code, with which the image ends.
    pub code: &'a [u8],
    routines: usize,
    begins: [u16; ROUTINES],
}

/// Reads the layout of an image. The refusal is 2, 3 or 4, as in [`check`](crate::check), which tests the limits before.
///
/// That the layout is right does not say that a check accepts the image.
///
/// ```
/// let image = b"SLU\x00\x01\x80\x00\x02\x00\x03\x00\x04\x88\x84\x81\xCD\x80\x00\x81";
/// let layout = gate_host::layout(image)?;
/// assert_eq!((layout.version, layout.base), (1, 0x8000));
/// assert_eq!(layout.code, [0x88, 0x84, 0x81, 0xCD, 0x80, 0x00, 0x81]);
/// assert_eq!(gate_host::layout(b"ELF"), Err(gate_host::Refusal::NotSlu));
/// # Ok::<(), gate_host::Refusal>(())
/// ```
pub fn layout(image: &[u8]) -> Result<Layout<'_>, Refusal> {
    let mut cells = LayoutCells::default();
    match cells::layout(image, &mut cells) {
        cells::OK => {
            let LayoutCells { version, base, routines, code, size, begins } = cells;
            let code = &image[code.into()..][..size.into()];
            Ok(Layout { version, base, code, routines: routines.into(), begins })
        }
        number => Err(crate::refusal(number)),
    }
}

impl Layout<'_> {
    /// The routines in the image's order, main last: the bytes of each as a range of the code.
    ///
    /// ```
    /// let image = b"SLU\x00\x01\x80\x00\x02\x00\x03\x00\x04\x88\x84\x81\xCD\x80\x00\x81";
    /// let layout = gate_host::layout(image)?;
    /// assert_eq!(layout.routines().collect::<Vec<_>>(), [0..3, 3..7]);
    /// for routine in layout.routines() {
    ///     assert_eq!(layout.code[routine].last(), Some(&0x81)); // RET
    /// }
    /// # Ok::<(), gate_host::Refusal>(())
    /// ```
    pub fn routines(&self) -> impl DoubleEndedIterator<Item = Range<usize>> + ExactSizeIterator + '_ {
        let begins = &self.begins[..self.routines];
        begins.iter().enumerate().map(move |(number, &begin)| {
            let end = begins.get(number + 1).map_or(self.code.len(), |&next| next.into());
            begin.into()..end
        })
    }

    /// The address of main, the last routine, where a start sets PC.
    ///
    /// ```
    /// let image = b"SLU\x00\x01\x80\x00\x02\x00\x03\x00\x04\x88\x84\x81\xCD\x80\x00\x81";
    /// assert_eq!(gate_host::layout(image)?.main(), 0x8003);
    /// # Ok::<(), gate_host::Refusal>(())
    /// ```
    pub fn main(&self) -> u16 {
        self.base + self.begins[self.routines - 1]
    }
}
