//! Yolktrowel in your own process: is a USB Audio Class 2.0 descriptor sound, what does it describe, and what does a script of a bus come
//! to. The functions are the proved program's, from the static library that tools/library builds; docs/LIBRARY.md says what is proved of
//! a call.
//!
//! ```
//! let headset = include_bytes!("../../examples/headset.bin");
//! assert_eq!(yolktrowel::check(headset).text, "ok blocks 28 entities 7 streams 2 domains 1\n");
//! assert_eq!(yolktrowel::check(&headset[..20]).text, "descriptor G1 at 18\n");
//! ```

mod ffi {
    #[link(name = "yolktrowel", kind = "static")]
    extern "C" {
        pub fn uac_check(bytes: *const u8, len: usize, text: *mut u8, room: usize, written: *mut usize) -> u8;
        pub fn uac_show(bytes: *const u8, len: usize, text: *mut u8, room: usize, written: *mut usize) -> u8;
        pub fn uac_elements(bytes: *const u8, len: usize, text: *mut u8, room: usize, written: *mut usize) -> u8;
        pub fn uac_run(script: *const u8, len: usize, lanes: bool, text: *mut u8, room: usize, written: *mut usize) -> u8;
        pub fn uac_gen(number: u32, lanes: bool, text: *mut u8, room: usize, written: *mut usize) -> u8;
        pub fn uac_full(rate: u32, script: *const u8, len: usize, text: *mut u8, room: usize, written: *mut usize) -> u8;
        pub fn uac_pair(rate: u32, script: *const u8, len: usize, text: *mut u8, room: usize, written: *mut usize) -> u8;
        pub fn uac_panel(script: *const u8, len: usize, text: *mut u8, room: usize, written: *mut usize) -> u8;
        pub fn uac_settle(text: *mut u8, room: usize, written: *mut usize) -> u8;
    }
}

/// How a call ended: the exit statuses of the program.
#[derive(Clone, Copy, Debug, PartialEq, Eq)]
#[non_exhaustive]
pub enum Status {
    /// The whole input was read.
    Ok,
    /// The descriptor breaks a rule: the text's last line names it.
    Descriptor,
    /// A line of the script breaks a rule: the text's last line names it.
    Script,
    /// The rate is none of the command's: the text says how the program is used.
    Usage,
    /// An allocation failed. There is no text.
    NoMemory,
    /// The input has more than 268,435,456 bytes.
    TooLong,
}

/// What the program says, and how it ended.
#[derive(Clone, Debug, PartialEq, Eq)]
pub struct Answer {
    pub status: Status,
    pub text: String,
}

impl Answer {
    /// Whether the descriptor is sound, or each line of the script was done.
    pub fn is_ok(&self) -> bool {
        self.status == Status::Ok
    }

    /// Its lines.
    pub fn lines(&self) -> std::str::Lines<'_> {
        self.text.lines()
    }

    /// The rule that is broken first, as `G5`, `U6` or `S2`; None where none is.
    pub fn rule(&self) -> Option<&str> {
        match self.status {
            Status::Descriptor | Status::Script => self.text.lines().last()?.split(' ').nth(1),
            Status::Ok | Status::Usage | Status::NoMemory | Status::TooLong => None,
        }
    }
}

/// Calls with a room that grows until the text fits. What isn't written of it takes no memory.
fn answer(call: impl Fn(*mut u8, usize, *mut usize) -> u8) -> Answer {
    let mut text = vec![0; 1 << 22];
    loop {
        let mut written = 0;
        let status = match call(text.as_mut_ptr(), text.len(), &mut written) {
            0 => Status::Ok,
            1 => Status::Descriptor,
            2 => Status::Script,
            3 => Status::Usage,
            5 => {
                text = vec![0; 8 * text.len()];
                continue;
            }
            6 => Status::NoMemory,
            7 => Status::TooLong,
            other => unreachable!("the library has no status {other}"),
        };
        text.truncate(written);
        text.shrink_to_fit();
        let text = String::from_utf8(text).expect("the text is ASCII");
        return Answer { status, text };
    }
}

/// Whether a configuration descriptor is sound, and if not, which rule it breaks first. A device descriptor in front is passed over.
pub fn check(descriptor: &[u8]) -> Answer {
    answer(|text, room, written| unsafe { ffi::uac_check(descriptor.as_ptr(), descriptor.len(), text, room, written) })
}

/// The blocks, the entities and the settings of a sound descriptor.
pub fn show(descriptor: &[u8]) -> Answer {
    answer(|text, room, written| unsafe { ffi::uac_show(descriptor.as_ptr(), descriptor.len(), text, room, written) })
}

/// What a host's mixer shows of a fresh device.
pub fn elements(descriptor: &[u8]) -> Answer {
    answer(|text, room, written| unsafe { ffi::uac_elements(descriptor.as_ptr(), descriptor.len(), text, room, written) })
}

/// The units with which a graph is rendered. No byte of a transcript differs by them.
#[derive(Clone, Copy, Debug, Default, PartialEq, Eq)]
pub enum Rack {
    /// One sample after the other.
    #[default]
    Plain,
    /// Eight lanes at a time.
    Lanes,
}

/// Does the lines of a script, to its end or to the first that is refused (docs/SCRIPT.md).
pub fn run(script: &[u8], rack: Rack) -> Answer {
    let lanes = rack == Rack::Lanes;
    answer(|text, room, written| unsafe { ffi::uac_run(script.as_ptr(), script.len(), lanes, text, room, written) })
}

/// Does the lines of the script that is made from a number.
pub fn generate(number: u32, rack: Rack) -> Answer {
    let lanes = rack == Rack::Lanes;
    answer(|text, room, written| unsafe { ffi::uac_gen(number, lanes, text, room, written) })
}

/// Does the lines of a script on one full-speed stream of this rate in Hz, one of the ten up to 96,000.
pub fn full(rate: u32, script: &[u8]) -> Answer {
    answer(|text, room, written| unsafe { ffi::uac_full(rate, script.as_ptr(), script.len(), text, room, written) })
}

/// Does the lines of a script on a pair of streams of this rate in Hz, of which the host follows one by the other.
pub fn pair(rate: u32, script: &[u8]) -> Answer {
    answer(|text, room, written| unsafe { ffi::uac_pair(rate, script.as_ptr(), script.len(), text, room, written) })
}

/// Does the lines of a script on a front panel: knobs on a device, and a host that hears of them.
pub fn panel(script: &[u8]) -> Answer {
    answer(|text, room, written| unsafe { ffi::uac_panel(script.as_ptr(), script.len(), text, room, written) })
}

/// After how many microframes without a lost packet a stream's level is back at its target, within four frames, at each rate.
pub fn settle() -> Answer {
    answer(|text, room, written| unsafe { ffi::uac_settle(text, room, written) })
}
