//! Which FD plays a tone.

use crate::refusal::Refusal;

#[derive(Clone, Copy, Debug, PartialEq, Eq)]
pub struct Tone {
    /// In hundredths of a hertz, 0 to 2,000,000.
    pub frequency: u32,
    /// The chip's clock in hertz, 1 to 12,520,000.
    pub clock: u32,
    /// Words of the wave memory in one cycle, 1 to 65,536.
    pub words: u32,
}

impl Tone {
    pub fn fd(&self) -> Result<u16, Refusal> {
        let in_range = self.frequency <= 2_000_000
            && (1..=12_520_000).contains(&self.clock)
            && (1..=65_536).contains(&self.words);
        if !in_range {
            return Err(Refusal::PitchRange);
        }
        let fd = u64::from(self.frequency) * 786_432 * u64::from(self.words)
            / (100 * u64::from(self.clock));
        u16::try_from(fd).map_err(|_| Refusal::PitchTooHigh)
    }
}

#[cfg(test)]
mod tests {
    use super::*;

    fn fd(frequency: u32, clock: u32, words: u32) -> Result<u16, Refusal> {
        Tone {
            frequency,
            clock,
            words,
        }
        .fd()
    }

    #[test]
    fn known_pitches() {
        assert_eq!(fd(44_000, 10_000_000, 256), Ok(8_858));
        assert_eq!(fd(3_889, 10_000_000, 256), Ok(782));
        assert_eq!(fd(0, 1, 1), Ok(0));
    }

    #[test]
    fn ranges_before_size() {
        assert_eq!(fd(2_000_001, 1, 65_536), Err(Refusal::PitchRange));
        assert_eq!(fd(2_000_000, 0, 1), Err(Refusal::PitchRange));
        assert_eq!(fd(2_000_000, 12_520_001, 1), Err(Refusal::PitchRange));
        assert_eq!(fd(2_000_000, 1, 0), Err(Refusal::PitchRange));
        assert_eq!(fd(2_000_000, 1, 65_537), Err(Refusal::PitchRange));
        assert_eq!(fd(2_000_000, 1, 65_536), Err(Refusal::PitchTooHigh));
    }
}
