//! What is compared: a lowering and a player behind one pair of entries.

use crate::player::{self, Played};
use crate::reference::{self, Answer};

pub trait Machine {
    fn lower(&self, sheet: &[u8], listing: &mut [u8], constants: &mut [u64]) -> Answer;
    fn play(&self, listing: &[u8], constants: &[u64], store: &mut [u64], start: u64) -> Played;
}

/// The Rust's lowering and the independent player.
pub struct Reference;

impl Machine for Reference {
    fn lower(&self, sheet: &[u8], listing: &mut [u8], constants: &mut [u64]) -> Answer {
        reference::lower(sheet, listing, constants)
    }

    fn play(&self, listing: &[u8], constants: &[u64], store: &mut [u64], start: u64) -> Played {
        player::play(listing, constants, store, start)
    }
}
