//! The library under test, libplate.a, by its C interface. Every lent buffer lies between guard bytes, which no call may
//! change; nor may a call change what it is lent to read.

/// What every call answers.
#[repr(C)]
#[derive(Clone, Copy, PartialEq, Eq, Debug)]
pub struct Answer {
    pub number: u32,
    pub place: u32,
}

pub fn answer(number: u32, place: u32) -> Answer {
    Answer { number, place }
}

pub const OK: Answer = Answer { number: 0, place: 0 };

/// What a change of wires answers: a number and a place as every call, and the new board's visiting list.
#[repr(C)]
#[derive(Clone, Copy, PartialEq, Eq, Debug)]
pub struct Wiring {
    pub number: u32,
    pub place: u32,
    pub count: u32,
    pub listed: [u8; 64],
}

/// The interface as firmware links it.
pub mod c {
    use super::{Answer, Wiring};
    extern "C" {
        pub fn plate_judge(board: *const u8, board_len: usize) -> Answer;
        pub fn plate_tail(board: *const u8, board_len: usize) -> Answer;
        pub fn plate_fresh(board: *const u8, board_len: usize, memory: *mut u8, memory_len: usize) -> Answer;
        pub fn plate_block(
            board: *const u8,
            board_len: usize,
            memory: *mut u8,
            memory_len: usize,
            input: *const u8,
            input_len: usize,
            out0: *mut u8,
            out0_len: usize,
            out1: *mut u8,
            out1_len: usize,
        ) -> Answer;
        pub fn plate_block24(
            board: *const u8,
            board_len: usize,
            memory: *mut u8,
            memory_len: usize,
            input: *const u8,
            input_len: usize,
            out0: *mut u8,
            out0_len: usize,
            out1: *mut u8,
            out1_len: usize,
        ) -> Answer;
        pub fn plate_message(
            board: *const u8,
            board_len: usize,
            memory: *mut u8,
            memory_len: usize,
            node: u32,
            value: f32,
        ) -> Answer;
        pub fn plate_mix(board: *const u8, board_len: usize, memory: *mut u8, memory_len: usize, mix: f32) -> Answer;
        pub fn plate_write(n: u32, mix: f32, board: *mut u8, board_len: usize) -> Answer;
        pub fn plate_add_wire(bytes: *mut u8, bytes_len: usize, board_len: usize, source: u16, target: u16) -> Wiring;
        pub fn plate_pull_wire(bytes: *mut u8, bytes_len: usize, board_len: usize, source: u16, target: u16) -> Wiring;
        pub fn plate_delay_length(ms: f32) -> Answer;
        pub fn plate_allpass_length(ms: f32) -> Answer;
    }
}

const GUARD: usize = 64;
const MARK: u8 = 0xa5;

/// Bytes to lend, between guard bytes, at an address that need not be a multiple of 4.
pub struct Lent {
    bytes: Vec<u8>,
    start: usize,
    len: usize,
}

impl Lent {
    pub fn new(content: &[u8]) -> Self {
        let start = GUARD + content.len() % 4;
        let mut bytes = vec![MARK; start + content.len() + GUARD];
        bytes[start..start + content.len()].copy_from_slice(content);
        Lent { bytes, start, len: content.len() }
    }
    pub fn get(&self) -> &[u8] {
        &self.bytes[self.start..self.start + self.len]
    }
    pub fn get_mut(&mut self) -> &mut [u8] {
        &mut self.bytes[self.start..self.start + self.len]
    }
    /// The guard bytes are as they were.
    pub fn guarded(&self) -> bool {
        let end = self.start + self.len;
        self.bytes[..self.start].iter().chain(&self.bytes[end..]).all(|&b| b == MARK)
    }
    fn pointer(&self) -> *const u8 {
        self.get().as_ptr()
    }
    fn pointer_mut(&mut self) -> *mut u8 {
        self.get_mut().as_mut_ptr()
    }
}

pub fn judge(board: &Lent) -> Answer {
    unsafe { c::plate_judge(board.pointer(), board.len) }
}
pub fn tail(board: &Lent) -> Answer {
    unsafe { c::plate_tail(board.pointer(), board.len) }
}
pub fn fresh(board: &Lent, memory: &mut Lent) -> Answer {
    unsafe { c::plate_fresh(board.pointer(), board.len, memory.pointer_mut(), memory.len) }
}
pub fn block(board: &Lent, memory: &mut Lent, input: &Lent, out0: &mut Lent, out1: &mut Lent) -> Answer {
    unsafe {
        c::plate_block(
            board.pointer(),
            board.len,
            memory.pointer_mut(),
            memory.len,
            input.pointer(),
            input.len,
            out0.pointer_mut(),
            out0.len,
            out1.pointer_mut(),
            out1.len,
        )
    }
}
pub fn block24(board: &Lent, memory: &mut Lent, input: &Lent, out0: &mut Lent, out1: &mut Lent) -> Answer {
    unsafe {
        c::plate_block24(
            board.pointer(),
            board.len,
            memory.pointer_mut(),
            memory.len,
            input.pointer(),
            input.len,
            out0.pointer_mut(),
            out0.len,
            out1.pointer_mut(),
            out1.len,
        )
    }
}
pub fn message(board: &Lent, memory: &mut Lent, node: u32, value: f32) -> Answer {
    unsafe { c::plate_message(board.pointer(), board.len, memory.pointer_mut(), memory.len, node, value) }
}
pub fn mix(board: &Lent, memory: &mut Lent, mix: f32) -> Answer {
    unsafe { c::plate_mix(board.pointer(), board.len, memory.pointer_mut(), memory.len, mix) }
}
pub fn write(n: u32, mix: f32, board: &mut Lent) -> Answer {
    unsafe { c::plate_write(n, mix, board.pointer_mut(), board.len) }
}
pub fn add_wire(bytes: &mut Lent, board_len: usize, source: u16, target: u16) -> Wiring {
    unsafe { c::plate_add_wire(bytes.pointer_mut(), bytes.len, board_len, source, target) }
}
pub fn pull_wire(bytes: &mut Lent, board_len: usize, source: u16, target: u16) -> Wiring {
    unsafe { c::plate_pull_wire(bytes.pointer_mut(), bytes.len, board_len, source, target) }
}
pub fn delay_length(ms: f32) -> Answer {
    unsafe { c::plate_delay_length(ms) }
}
pub fn allpass_length(ms: f32) -> Answer {
    unsafe { c::plate_allpass_length(ms) }
}
