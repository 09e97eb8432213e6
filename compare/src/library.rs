//! The static library, as `include/zelkhomur.h` declares it, over slices.

#[repr(C)]
#[derive(Clone, Copy, Debug, PartialEq, Eq)]
pub struct HeaderAnswer {
    pub refusal: u8,
    pub kind: u8,
    pub clock: u32,
}

#[repr(C)]
#[derive(Clone, Copy, Debug, PartialEq, Eq)]
pub struct FdAnswer {
    pub refusal: u8,
    pub fd: u16,
}

#[repr(C)]
#[derive(Clone, Copy, Debug, Default, PartialEq, Eq)]
pub struct Record {
    pub tag: u8,
    pub byte: u8,
    pub value: u16,
    pub start: usize,
    pub count: usize,
}

#[repr(C)]
#[derive(Clone, Copy, Debug, PartialEq, Eq)]
pub struct Recorded {
    pub refusal: u8,
    pub length: usize,
}

#[repr(C)]
#[derive(Clone, Copy, Debug, PartialEq, Eq)]
pub struct Voice {
    pub phase: u32,
    pub left: i16,
    pub right: i16,
    pub sounding: u8,
    pub env: u8,
    pub pan: u8,
    pub fdl: u8,
    pub fdh: u8,
    pub lsl: u8,
    pub lsh: u8,
    pub st: u8,
}

#[repr(C)]
#[derive(Clone, Copy, Debug, PartialEq, Eq)]
pub struct Chip {
    pub voices: [Voice; 8],
    pub kind: u8,
    pub converter: u8,
    pub mutes: u8,
    pub on: u8,
    pub bank: u8,
    pub selected: u8,
    pub channel: u8,
}

#[repr(C)]
#[derive(Clone, Copy, Debug, PartialEq, Eq)]
pub struct Player {
    pub place: usize,
    pub bit: usize,
    pub ticks: u16,
    pub address: u16,
    pub state: u8,
    pub number: u8,
    pub has_address: u8,
}

#[repr(C)]
#[derive(Clone, Copy, Debug, PartialEq, Eq)]
pub struct Contributions {
    pub left: [i16; 8],
    pub right: [i16; 8],
}

#[repr(C)]
#[derive(Clone, Copy, Debug, Default, PartialEq, Eq)]
pub struct Side {
    pub contributions: [i16; 8],
    pub total: i32,
    pub word: u16,
}

#[repr(C)]
#[derive(Clone, Copy, Debug, Default, PartialEq, Eq)]
pub struct Frame {
    pub left: Side,
    pub right: Side,
}

#[repr(C)]
#[derive(Clone, Copy, Debug, Default, PartialEq, Eq)]
pub struct Totals {
    pub left: i32,
    pub right: i32,
}

#[repr(C)]
#[derive(Clone, Copy, Debug, Default, PartialEq, Eq)]
pub struct Words {
    pub left: u16,
    pub right: u16,
}

#[repr(C)]
#[derive(Clone, Copy, Debug, PartialEq, Eq)]
pub struct ReadAnswer {
    pub refusal: u8,
    pub byte: u8,
}

#[repr(C)]
#[derive(Clone, Copy, Debug, PartialEq, Eq)]
pub struct StepAnswer {
    pub bit: usize,
    pub address: u16,
    pub progress: u8,
    pub number: u8,
}

#[repr(C)]
#[derive(Clone, Copy, Debug, PartialEq, Eq)]
pub struct Played {
    pub ticks: usize,
    pub last: StepAnswer,
}

#[rustfmt::skip]
extern "C" {
    fn zelkhomur_check_header(log: *const u8, log_length: usize) -> HeaderAnswer;
    fn zelkhomur_fd(frequency: u32, clock: u32, words: u32) -> FdAnswer;
    fn zelkhomur_record_log(
        kind: u8, clock: u32, records: *const Record, records_count: usize, bytes: *const u8, bytes_length: usize,
        buffer: *mut u8, buffer_length: usize,
    ) -> Recorded;
    fn zelkhomur_copy_log(log: *const u8, log_length: usize, buffer: *mut u8, buffer_length: usize) -> Recorded;
    fn zelkhomur_new_chip(kind: u8, converter: u8, mutes: u8) -> Chip;
    fn zelkhomur_reset(chip: *mut Chip);
    fn zelkhomur_write(
        chip: *mut Chip, ram: *mut u8, ram_length: usize, rom: *const u8, rom_length: usize, address: u16, byte: u8,
    ) -> u8;
    fn zelkhomur_read(
        chip: *const Chip, ram: *const u8, ram_length: usize, rom: *const u8, rom_length: usize, address: u16,
    ) -> ReadAnswer;
    fn zelkhomur_inspect(
        chip: *const Chip, ram: *const u8, ram_length: usize, rom: *const u8, rom_length: usize, offset: u16,
        buffer: *mut u8, buffer_length: usize,
    ) -> u8;
    fn zelkhomur_tick(
        chip: *mut Chip, ram: *const u8, ram_length: usize, rom: *const u8, rom_length: usize, frame: *mut Frame,
    ) -> u8;
    fn zelkhomur_tell(chip: *const Chip) -> Contributions;
    fn zelkhomur_new_player() -> Player;
    fn zelkhomur_play(
        chip: *mut Chip, player: *mut Player, log: *const u8, log_length: usize, ram: *mut u8, ram_length: usize,
        rom: *const u8, rom_length: usize, totals: *mut Totals, totals_count: usize, words: *mut Words,
        words_count: usize,
    ) -> Played;
}

/// The two parts of a memory.
#[derive(Clone, Debug)]
pub struct Memory {
    pub ram: Vec<u8>,
    pub rom: Vec<u8>,
}

// Each function gets pointers of slices that live through the call, those that it may write from `&mut` slices.

pub fn check_header(log: &[u8]) -> HeaderAnswer {
    unsafe { zelkhomur_check_header(log.as_ptr(), log.len()) }
}

pub fn fd(frequency: u32, clock: u32, words: u32) -> FdAnswer {
    unsafe { zelkhomur_fd(frequency, clock, words) }
}

#[rustfmt::skip]
pub fn record_log(kind: u8, clock: u32, records: &[Record], bytes: &[u8], buffer: &mut [u8]) -> Recorded {
    unsafe {
        zelkhomur_record_log(
            kind, clock, records.as_ptr(), records.len(), bytes.as_ptr(), bytes.len(), buffer.as_mut_ptr(), buffer.len(),
        )
    }
}

pub fn copy_log(log: &[u8], buffer: &mut [u8]) -> Recorded {
    unsafe { zelkhomur_copy_log(log.as_ptr(), log.len(), buffer.as_mut_ptr(), buffer.len()) }
}

#[rustfmt::skip]
impl Chip {
    pub fn new(kind: u8, converter: u8, mutes: u8) -> Chip {
        unsafe { zelkhomur_new_chip(kind, converter, mutes) }
    }

    pub fn reset(&mut self) {
        unsafe { zelkhomur_reset(self) }
    }

    pub fn write(&mut self, memory: &mut Memory, address: u16, byte: u8) -> u8 {
        let Memory { ram, rom } = memory;
        unsafe { zelkhomur_write(self, ram.as_mut_ptr(), ram.len(), rom.as_ptr(), rom.len(), address, byte) }
    }

    pub fn read(&self, memory: &Memory, address: u16) -> ReadAnswer {
        let Memory { ram, rom } = memory;
        unsafe { zelkhomur_read(self, ram.as_ptr(), ram.len(), rom.as_ptr(), rom.len(), address) }
    }

    pub fn inspect(&self, memory: &Memory, offset: u16, buffer: &mut [u8]) -> u8 {
        let Memory { ram, rom } = memory;
        unsafe {
            zelkhomur_inspect(
                self, ram.as_ptr(), ram.len(), rom.as_ptr(), rom.len(), offset, buffer.as_mut_ptr(), buffer.len(),
            )
        }
    }

    pub fn tick(&mut self, memory: &Memory, frame: &mut Frame) -> u8 {
        let Memory { ram, rom } = memory;
        unsafe { zelkhomur_tick(self, ram.as_ptr(), ram.len(), rom.as_ptr(), rom.len(), frame) }
    }

    pub fn tell(&self) -> Contributions {
        unsafe { zelkhomur_tell(self) }
    }
}

#[rustfmt::skip]
impl Player {
    pub fn new() -> Player {
        unsafe { zelkhomur_new_player() }
    }

    pub fn play(
        &mut self, chip: &mut Chip, log: &[u8], memory: &mut Memory, totals: &mut [Totals], words: &mut [Words],
    ) -> Played {
        let Memory { ram, rom } = memory;
        unsafe {
            zelkhomur_play(
                chip, self, log.as_ptr(), log.len(), ram.as_mut_ptr(), ram.len(), rom.as_ptr(), rom.len(),
                totals.as_mut_ptr(), totals.len(), words.as_mut_ptr(), words.len(),
            )
        }
    }
}
