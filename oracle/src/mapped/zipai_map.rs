//! Stands for the map of honours.

use super::map::{Map, Necessary, Numbers, Unnecessary};

pub(super) static ZIPAI_REPLACEMENT_NUMBER_MAP: Numbers = Map::new();
pub(super) static ZIPAI_NECESSARY_TILES_MAP: Necessary = Map::new();
pub(super) static ZIPAI_UNNECESSARY_TILES_MAP: Unnecessary = Map::new();
