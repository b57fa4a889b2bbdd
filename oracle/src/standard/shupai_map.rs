//! Stands for the map of nine ranks.

use super::lookup::{Necessary, Numbers, Unnecessary};

pub(super) static SHUPAI_REPLACEMENT_NUMBER_MAP: Numbers<9> = Numbers;
pub(super) static SHUPAI_NECESSARY_TILES_MAP: Necessary<9> = Necessary;
pub(super) static SHUPAI_UNNECESSARY_TILES_MAP: Unnecessary<9> = Unnecessary;
