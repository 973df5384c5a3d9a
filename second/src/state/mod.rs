//! The state's bytes (§1.7), from the layout alone (`LAYOUT.md`): whether they are sound (§1.8), and whose they are.

pub mod decode;
pub mod former;
pub mod layout;
pub mod raw;
pub mod sound;
