//! The state of a machine and its 24,576 bytes. What does not depend on a module is tested when
//! the bytes are read: spare bytes and ranges, that of its pages among them.

use crate::module::{MAX_REGIONS, MAX_REGISTERS};
use crate::types::Live;

pub const STATE_BYTES: usize = 24_576;
pub const OUTPUT_BYTES: usize = 4096;
pub const FORM_BYTES: usize = 4096;
pub const PAGES: usize = 64;
pub const PAGE_BYTES: usize = 256;
pub const MEMORY_BYTES: usize = PAGES * PAGE_BYTES;
pub const MAX_FRAMES: usize = 16;
/// Live regions are numbered below this: seven for each of sixteen frames.
pub const LIVE_REGIONS: usize = MAX_FRAMES * MAX_REGIONS;

pub const RUNNING: u8 = 0;
pub const ENDED: u8 = 1;
pub const FIRST_STOP: u8 = 31;
pub const LAST_STOP: u8 = 39;

const STATUS_AT: usize = 0;
const FRAME_COUNT_AT: usize = 1;
const OUTPUT_COUNT_AT: usize = 2;
const RESULT_AT: usize = 4;
/// How many pages below and above its own the machine may not own: none. A state with other
/// numbers is another machine's.
const RANGE_AT: usize = 8;
pub const HEADER_END: usize = 10;
pub const OWNERS_AT: usize = 64;
pub const MARKS_AT: usize = 128;
pub const MARK_BYTES: usize = 32;
pub const FRAMES_AT: usize = 2176;
pub const FRAME_BYTES: usize = 128;
pub const MAP_AT: usize = 112;
const FUNCTION_AT: usize = 119;
const INSTRUCTION_AT: usize = 120;
const FRAME_END: usize = 122;
const FRAMES_END: usize = FRAMES_AT + MAX_FRAMES * FRAME_BYTES;
/// Address A is this byte and A more.
pub const MEMORY_AT: usize = 8192;

/// A frame; registers and map entries that its function does not have are zero.
#[derive(Clone, PartialEq, Eq, Debug)]
pub struct Frame {
    pub registers: [u32; MAX_REGISTERS],
    pub map: [Live; MAX_REGIONS],
    pub function: u8,
    pub instruction: u16,
}

/// A page's allocation marks: the object at place i is bit i mod 64 of word i / 64.
pub type Marks = [u64; 4];

#[derive(Clone, PartialEq, Eq, Debug)]
pub struct State {
    pub status: u8,
    pub output_count: u16,
    pub result: u32,
    /// Lowest frame first.
    pub frames: Vec<Frame>,
    pub owners: [Option<Live>; PAGES],
    pub marks: [Marks; PAGES],
    pub memory: Box<[u8; MEMORY_BYTES]>,
}

/// The bytes are not those of any state of a machine with all pages: a spare byte is set, a value
/// is out of its range, or a page is not the machine's.
#[derive(Clone, Copy, PartialEq, Eq, Debug)]
pub struct Malformed;

fn u16_at(bytes: &[u8], at: usize) -> u16 {
    u16::from_le_bytes([bytes[at], bytes[at + 1]])
}

fn u32_at(bytes: &[u8], at: usize) -> u32 {
    u32::from_le_bytes([bytes[at], bytes[at + 1], bytes[at + 2], bytes[at + 3]])
}

fn all_zero(bytes: &[u8]) -> bool {
    bytes.iter().all(|&byte| byte == 0)
}

fn require(condition: bool) -> Result<(), Malformed> {
    condition.then_some(()).ok_or(Malformed)
}

impl Frame {
    pub fn new(function: u8) -> Frame {
        Frame {
            registers: [0; MAX_REGISTERS],
            map: [Live(0); MAX_REGIONS],
            function,
            instruction: 0,
        }
    }

    fn to_bytes(&self, bytes: &mut [u8]) {
        for (i, register) in self.registers.iter().enumerate() {
            bytes[4 * i..4 * i + 4].copy_from_slice(&register.to_le_bytes());
        }
        for (byte, live) in bytes[MAP_AT..FUNCTION_AT].iter_mut().zip(self.map) {
            *byte = live.0;
        }
        bytes[FUNCTION_AT] = self.function;
        bytes[INSTRUCTION_AT..FRAME_END].copy_from_slice(&self.instruction.to_le_bytes());
    }

    fn from_bytes(bytes: &[u8]) -> Result<Frame, Malformed> {
        require(all_zero(&bytes[FRAME_END..]))?;
        let mut frame = Frame::new(bytes[FUNCTION_AT]);
        for (i, register) in frame.registers.iter_mut().enumerate() {
            *register = u32_at(bytes, 4 * i);
        }
        for (live, &byte) in frame.map.iter_mut().zip(&bytes[MAP_AT..FUNCTION_AT]) {
            require(usize::from(byte) < LIVE_REGIONS)?;
            *live = Live(byte);
        }
        frame.instruction = u16_at(bytes, INSTRUCTION_AT);
        Ok(frame)
    }
}

impl State {
    /// No frame, no page owned, all bytes zero.
    pub fn empty() -> State {
        State {
            status: RUNNING,
            output_count: 0,
            result: 0,
            frames: Vec::with_capacity(MAX_FRAMES),
            owners: [None; PAGES],
            marks: [[0; 4]; PAGES],
            memory: Box::new([0; MEMORY_BYTES]),
        }
    }

    pub fn owned_pages(&self) -> usize {
        self.owners.iter().flatten().count()
    }

    pub fn to_bytes(&self) -> Vec<u8> {
        let mut bytes = vec![0; STATE_BYTES];
        self.write(&mut bytes);
        bytes
    }

    /// Writes all 24,576 bytes.
    pub fn write(&self, bytes: &mut [u8]) {
        bytes[..MEMORY_AT].fill(0);
        bytes[STATUS_AT] = self.status;
        bytes[FRAME_COUNT_AT] = self.frames.len() as u8;
        bytes[OUTPUT_COUNT_AT..RESULT_AT].copy_from_slice(&self.output_count.to_le_bytes());
        bytes[RESULT_AT..RANGE_AT].copy_from_slice(&self.result.to_le_bytes());
        for page in 0..PAGES {
            bytes[OWNERS_AT + page] = self.owners[page].map_or(0, |live| live.0 + 1);
            for (word, mark) in self.marks[page].iter().enumerate() {
                let at = MARKS_AT + MARK_BYTES * page + 8 * word;
                bytes[at..at + 8].copy_from_slice(&mark.to_le_bytes());
            }
        }
        for (i, frame) in self.frames.iter().enumerate() {
            let at = FRAMES_AT + FRAME_BYTES * i;
            frame.to_bytes(&mut bytes[at..at + FRAME_BYTES]);
        }
        bytes[MEMORY_AT..].copy_from_slice(&self.memory[..]);
    }

    /// The state that these 24,576 bytes hold, without regard to a module.
    pub fn from_bytes(bytes: &[u8]) -> Result<State, Malformed> {
        require(bytes.len() == STATE_BYTES)?;
        require(all_zero(&bytes[RANGE_AT..HEADER_END]))?;
        require(all_zero(&bytes[HEADER_END..OWNERS_AT]))?;
        require(all_zero(&bytes[FRAMES_END..MEMORY_AT]))?;
        let mut state = State::empty();
        state.status = bytes[STATUS_AT];
        require(matches!(state.status, RUNNING | ENDED | FIRST_STOP..=LAST_STOP))?;
        state.output_count = u16_at(bytes, OUTPUT_COUNT_AT);
        require(usize::from(state.output_count) <= OUTPUT_BYTES)?;
        state.result = u32_at(bytes, RESULT_AT);
        let frames = usize::from(bytes[FRAME_COUNT_AT]);
        require(frames <= MAX_FRAMES)?;
        for page in 0..PAGES {
            let owner = bytes[OWNERS_AT + page];
            require(usize::from(owner) <= LIVE_REGIONS)?;
            state.owners[page] = owner.checked_sub(1).map(Live);
            for (word, mark) in state.marks[page].iter_mut().enumerate() {
                let at = MARKS_AT + MARK_BYTES * page + 8 * word;
                let mark_bytes = bytes[at..at + 8].try_into().expect("eight bytes");
                *mark = u64::from_le_bytes(mark_bytes);
            }
        }
        let mut frame_bytes = bytes[FRAMES_AT..FRAMES_END].chunks_exact(FRAME_BYTES);
        for bytes in frame_bytes.by_ref().take(frames) {
            state.frames.push(Frame::from_bytes(bytes)?);
        }
        require(frame_bytes.all(all_zero))?;
        state.memory.copy_from_slice(&bytes[MEMORY_AT..]);
        Ok(state)
    }
}
