//! One voice of a chip.

use crate::memory::{byte_at, Memory, STOP};

/// Positions to a place of the wave memory.
pub const PARTS: u32 = 2_048;

/// A position has 27 bits.
pub const POSITIONS: u32 = 1 << 27;

/// What a voice contributes to the left and to the right side.
pub type Pair = (i32, i32);

#[derive(Clone, Debug, Default, PartialEq, Eq)]
pub struct Voice {
    pub env: u8,
    pub pan: u8,
    pub fdl: u8,
    pub fdh: u8,
    pub lsl: u8,
    pub lsh: u8,
    pub st: u8,
    /// The position of a voice that goes; none for a voice at rest.
    pub going: Option<u32>,
    pub latest: Pair,
}

impl Voice {
    pub fn step(&self) -> u32 {
        u32::from(self.fdh) * 256 + u32::from(self.fdl)
    }

    pub fn loop_start(&self) -> u32 {
        (u32::from(self.lsh) * 256 + u32::from(self.lsl)) * PARTS
    }

    pub fn start(&self) -> u32 {
        u32::from(self.st) * 524_288
    }

    /// Where the voice stands: at rest, at its start for the ST of this moment.
    pub fn position(&self) -> u32 {
        match self.going {
            Some(position) => position,
            None => self.start(),
        }
    }

    /// The memory place at which the voice stands.
    pub fn place(&self) -> u32 {
        self.position() / PARTS
    }

    /// One tick of the voice. `on` says whether it is switched on.
    pub fn tick<M: Memory>(&mut self, on: bool, memory: &M) {
        if !on {
            self.going = None;
            self.latest = (0, 0);
            return;
        }
        let mut position = match self.going {
            None => self.start(),
            Some(position) => (position + self.step()) % POSITIONS,
        };
        let mut byte = byte_at(memory, (position / PARTS) as usize);
        if byte == STOP {
            position = self.loop_start();
            byte = byte_at(memory, (position / PARTS) as usize);
        }
        self.going = Some(position);
        self.latest = contribution(byte, self.env, self.pan);
    }
}

/// What a wave byte contributes at an envelope and a pan.
pub fn contribution(byte: u8, env: u8, pan: u8) -> Pair {
    let side = |share: u8| {
        let size = i32::from(byte % 128) * i32::from(env) * i32::from(share) / 32;
        if byte >= 128 {
            size
        } else {
            -size
        }
    };
    (side(pan % 16), side(pan / 16))
}

#[cfg(test)]
mod tests {
    use super::*;
    use crate::memory::Ram;

    #[test]
    fn known_contributions() {
        assert_eq!(contribution(0xFE, 255, 0xFF), (15_060, 15_060));
        assert_eq!(contribution(0x7F, 255, 0xFF), (-15_180, -15_180));
        assert_eq!(contribution(0x80, 255, 0xFF), (0, 0));
        assert_eq!(contribution(0x00, 255, 0xFF), (0, 0));
        assert_eq!(contribution(0xC0, 128, 0x12), (512, 256));
        assert_eq!(contribution(0xFF, 255, 0xFF), (15_180, 15_180));
    }

    #[test]
    fn sizes_are_cut_before_the_sign() {
        assert_eq!(contribution(0x01, 1, 0x1F), (0, 0));
        assert_eq!(contribution(0x03, 15, 0x0F), (-21, 0));
        assert_eq!(contribution(0x83, 15, 0x0F), (21, 0));
    }

    #[test]
    fn a_position_goes_round() {
        let memory = Ram {
            bytes: vec![0; 65_536],
        };
        let mut voice = Voice {
            fdl: 1,
            going: Some(134_217_727),
            ..Voice::default()
        };
        voice.tick(true, &memory);
        assert_eq!(voice.going, Some(0));
    }

    #[test]
    fn a_voice_at_rest_stands_at_its_start() {
        let voice = Voice {
            st: 0x12,
            ..Voice::default()
        };
        assert_eq!(voice.position(), 9_437_184);
        assert_eq!(voice.place(), 0x1200);
    }

    #[test]
    fn three_places_a_tick() {
        let memory = Ram {
            bytes: vec![0; 65_536],
        };
        let mut voice = Voice {
            fdh: 0x18,
            ..Voice::default()
        };
        voice.tick(true, &memory);
        assert_eq!(voice.place(), 0);
        voice.tick(true, &memory);
        assert_eq!(voice.place(), 3);
    }

    #[test]
    fn a_second_stop_byte_sounds() {
        let mut bytes = vec![0; 65_536];
        bytes[0] = 0xFF;
        bytes[0x0102] = 0xFF;
        let memory = Ram { bytes };
        let mut voice = Voice {
            env: 255,
            pan: 0xFF,
            lsl: 2,
            lsh: 1,
            fdl: 1,
            ..Voice::default()
        };
        voice.tick(true, &memory);
        assert_eq!(voice.position(), 0x0102 * PARTS);
        assert_eq!(voice.latest, (15_180, 15_180));
        voice.tick(true, &memory);
        assert_eq!(voice.position(), 0x0102 * PARTS);
        assert_eq!(voice.latest, (15_180, 15_180));
        voice.tick(false, &memory);
        assert_eq!(voice.going, None);
        assert_eq!(voice.latest, (0, 0));
    }
}
