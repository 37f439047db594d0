//! The proved functions, as `crates/exported` and `crates/exported_unit` give them to other languages. The only module with calls that Rust cannot check.

use plain::Refused;

pub const NUMBERS: usize = 128;
pub const LINES: usize = 61;

/// A sheet as the numbers of its text in their order: vehicles 0 to 3, the grades 1,000,000 more, the count of the numbers for
/// dwell before them, and every entry of all lists.
pub type Numbers = [u32; NUMBERS];
pub type Answer = Result<(), Refused>;

mod linked {
    use super::{Numbers, LINES};

    // A slice is a pointer and a length; an array that is lent, a pointer. None may be null, and no two that are written may overlap.
    extern "C" {
        pub fn lettofrisk_worksheet(text: *const u8, length: usize, lines: *mut [u64; LINES]) -> u64;
        pub fn lettofrisk_write(text: *const u8, length: usize, out: *mut u8, room: usize) -> u64;
        pub fn lettofrisk_unit(
            sheet: *const Numbers,
            stage: *mut [u32; 7],
            times: *mut [u64; 3],
            offered: *const Numbers,
            event: u32,
            call: bool,
            more: u32,
            kept: bool,
        ) -> u64;
    }
}

/// A refusal comes as its number times 2^32, and its line.
fn answer(code: u64) -> Answer {
    match (code >> 32) as u8 {
        0 => Ok(()),
        number => Err((number, code as u32)),
    }
}

/// The lines of a text; a refusal leaves them as they are.
pub fn worksheet(text: &[u8], lines: &mut [u64; LINES]) -> Answer {
    answer(unsafe { linked::lettofrisk_worksheet(text.as_ptr(), text.len(), lines) })
}

/// A text read and written again: its length.
pub fn write(text: &[u8], out: &mut [u8]) -> Result<usize, Refused> {
    let code = unsafe { linked::lettofrisk_write(text.as_ptr(), text.len(), out.as_mut_ptr(), out.len()) };
    answer(code).map(|()| code as usize)
}

/// A unit as numbers. The stage is its kind, place, what follows, the phase next, the phase shown, its light and its walker, as the crate
/// `state` numbers them; the times are those spent in the light or the track's interval and by the walker, and the count of the call.
#[derive(Clone, Copy, Debug, PartialEq, Eq)]
pub struct Unit {
    pub sheet: Numbers,
    pub stage: [u32; 7],
    pub times: [u64; 3],
}

impl Unit {
    /// What a start gives that accepts the sheet: track green, with all times at 0.
    pub fn fresh(sheet: Numbers) -> Unit {
        Unit { sheet, stage: [0; 7], times: [0; 3] }
    }

    /// An event, by its number, and `more` ticks without a command; `kept`: by the unit that runs on, whose lengths are worked out once.
    fn event(&mut self, offered: Option<&Numbers>, event: u32, call: bool, more: u32, kept: bool) -> Answer {
        let Unit { sheet, stage, times } = self;
        let held: &Numbers = sheet;
        let offered = offered.unwrap_or(held);
        answer(unsafe { linked::lettofrisk_unit(held, stage, times, offered, event, call, more, kept) })
    }

    pub fn load(&mut self, offered: &Numbers, kept: bool) -> Answer {
        let told = self.event(Some(offered), 0, false, 0, kept);
        if told.is_ok() {
            self.sheet = *offered;
        }
        told
    }

    /// A tick with the command, and `more` without one; the unit and its sheet are checked whole at each.
    pub fn ticks(&mut self, end: Option<u32>, call: bool, more: u32) -> Answer {
        self.event(None, end.map_or(1, |next| next + 2), call, more, false)
    }

    /// The same ticks by the unit that runs on.
    pub fn running(&mut self, end: Option<u32>, call: bool, more: u32) -> Answer {
        self.event(None, end.map_or(1, |next| next + 2), call, more, true)
    }
}
