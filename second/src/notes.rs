//! The note table of the data sheet, with its exceptions.

use crate::pitch::Tone;

const TABLE: &str = include_str!("../data/notes.txt");

#[derive(Clone, Debug)]
pub struct Note {
    pub name: String,
    /// Equal-tempered, in hundredths of a hertz.
    pub frequency: u32,
    pub scanned_fd: String,
    pub scanned_hertz: String,
    pub fd: u16,
    pub hertz: String,
    /// The scan has other characters than the sheet.
    pub misread: bool,
    /// The sheet has another FD than the formula gives.
    pub maker: bool,
}

impl Note {
    pub fn tone(&self) -> Tone {
        Tone {
            frequency: self.frequency,
            clock: 10_000_000,
            words: 256,
        }
    }

    /// The frequency of the sheet's FD, rounded as the sheet prints it: to hundredths, or from C6 on to tenths.
    pub fn hertz_of_fd(&self) -> String {
        let decimals = self.hertz.len() - self.hertz.find('.').expect("a point") - 1;
        let scale = 10u64.pow(decimals as u32);
        // twice the frequency, so that a half can be added
        let twice = 2 * u64::from(self.fd) * 10_000_000 * scale / (786_432 * 256);
        let rounded = twice.div_ceil(2);
        format!("{}.{:0decimals$}", rounded / scale, rounded % scale)
    }
}

/// The rows of the table.
pub fn notes() -> Vec<Note> {
    TABLE
        .lines()
        .filter(|line| !line.starts_with('#') && !line.trim().is_empty())
        .map(|line| {
            let fields: Vec<&str> = line.split_whitespace().collect();
            let class = fields.get(6).copied().unwrap_or("");
            Note {
                name: fields[0].to_string(),
                frequency: fields[1].parse().expect("a frequency"),
                scanned_fd: fields[2].replace('_', ""),
                scanned_hertz: fields[3].to_string(),
                fd: u16::from_str_radix(fields[4], 16).expect("an FD"),
                hertz: fields[5].to_string(),
                misread: class.split('+').any(|word| word == "misread"),
                maker: class.split('+').any(|word| word == "maker"),
            }
        })
        .collect()
}

#[cfg(test)]
mod tests {
    use super::*;

    #[test]
    fn every_note_from_c1_to_c7() {
        let names = [
            "C", "C#", "D", "D#", "E", "F", "F#", "G", "G#", "A", "A#", "B",
        ];
        let notes = notes();
        assert_eq!(notes.len(), 73);
        for (k, note) in notes.iter().enumerate() {
            assert_eq!(note.name, format!("{}{}", names[k % 12], 1 + k / 12));
            let hertz = 440.0 * 2f64.powf((k as f64 - 45.0) / 12.0);
            assert_eq!(
                note.frequency,
                (100.0 * hertz).round() as u32,
                "{}",
                note.name
            );
        }
    }

    #[test]
    fn the_scan_is_the_sheet_but_where_it_is_misread() {
        for note in notes() {
            let same =
                note.scanned_fd == format!("{:04X}", note.fd) && note.scanned_hertz == note.hertz;
            assert_eq!(same, !note.misread, "{}", note.name);
        }
    }

    #[test]
    fn each_frequency_follows_from_its_fd() {
        for note in notes() {
            assert_eq!(note.hertz_of_fd(), note.hertz, "{}", note.name);
        }
    }

    #[test]
    fn each_fd_follows_from_its_frequency_but_the_makers_own() {
        for note in notes() {
            assert_eq!(
                note.tone().fd() == Ok(note.fd),
                !note.maker,
                "{}",
                note.name
            );
        }
    }

    #[test]
    fn no_other_row_is_let_off() {
        let notes = notes();
        assert_eq!(notes.iter().filter(|note| note.misread).count(), 16);
        assert_eq!(notes.iter().filter(|note| note.maker).count(), 10);
    }
}
