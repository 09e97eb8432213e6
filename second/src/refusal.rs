//! Why a call is refused, and the number of each cause.

#[derive(Clone, Copy, Debug, PartialEq, Eq)]
pub enum Refusal {
    /// The memory under the chip has not 65,536 bytes.
    MemorySize,
    /// The host address is above 1FFFH.
    AddressTooHigh,
    /// There is nothing at the address for that direction.
    NothingThere,
    /// A window read while the chip is ON.
    WindowClosed,
    /// The memory place takes no writes.
    ReadOnly,
    /// The memory place is at or past the size.
    PastTheEnd,
    /// A log of fewer than 4 or more than 16,777,216 bytes.
    LogLength,
    /// A wrong field in a header, or the header of another kind of chip.
    Header,
    /// A record is cut short by the end of the log.
    Cut,
    /// A tag is 5, 6 or 7.
    Tag,
    /// A field of a record is out of its range.
    Field,
    /// A padding bit is set, or bytes follow the end.
    Padding,
    /// An inspection, a recording or an input is too long.
    NoRoom,
    /// An input of the pitch calculator is out of its range.
    PitchRange,
    /// The frequency would need an FD above 65,535.
    PitchTooHigh,
}

impl Refusal {
    pub const ALL: [Refusal; 15] = [
        Refusal::MemorySize,
        Refusal::AddressTooHigh,
        Refusal::NothingThere,
        Refusal::WindowClosed,
        Refusal::ReadOnly,
        Refusal::PastTheEnd,
        Refusal::LogLength,
        Refusal::Header,
        Refusal::Cut,
        Refusal::Tag,
        Refusal::Field,
        Refusal::Padding,
        Refusal::NoRoom,
        Refusal::PitchRange,
        Refusal::PitchTooHigh,
    ];

    pub fn number(self) -> u8 {
        match self {
            Refusal::MemorySize => 1,
            Refusal::AddressTooHigh => 2,
            Refusal::NothingThere => 3,
            Refusal::WindowClosed => 4,
            Refusal::ReadOnly => 5,
            Refusal::PastTheEnd => 6,
            Refusal::LogLength => 7,
            Refusal::Header => 8,
            Refusal::Cut => 9,
            Refusal::Tag => 10,
            Refusal::Field => 11,
            Refusal::Padding => 12,
            Refusal::NoRoom => 13,
            Refusal::PitchRange => 14,
            Refusal::PitchTooHigh => 15,
        }
    }
}

#[cfg(test)]
mod tests {
    use super::*;

    #[test]
    fn numbers_count_from_one() {
        for (index, refusal) in Refusal::ALL.iter().enumerate() {
            assert_eq!(refusal.number() as usize, index + 1);
        }
    }
}
