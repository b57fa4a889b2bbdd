//! Stands for the map of nine ranks.

use super::map::{Map, Necessary, Numbers, Unnecessary};

pub(super) static SHUPAI_REPLACEMENT_NUMBER_MAP: Numbers = Map::new();
pub(super) static SHUPAI_NECESSARY_TILES_MAP: Necessary = Map::new();
pub(super) static SHUPAI_UNNECESSARY_TILES_MAP: Unnecessary = Map::new();
