//! The RF5C68A and RF5C164 sound chips, their register logs and a player.
#![forbid(unsafe_code)]

pub mod calls;
pub mod chip;
pub mod clip;
pub mod generate;
pub mod log;
pub mod memory;
pub mod notes;
pub mod pitch;
pub mod player;
pub mod programs;
pub mod refusal;
pub mod station;
pub mod stem;
pub mod voice;
pub mod whole_log;
