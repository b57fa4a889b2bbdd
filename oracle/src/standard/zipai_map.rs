//! Stands for the map of honours.

use super::lookup::{Necessary, Numbers, Unnecessary};

pub(super) static ZIPAI_REPLACEMENT_NUMBER_MAP: Numbers<7> = Numbers;
pub(super) static ZIPAI_NECESSARY_TILES_MAP: Necessary<7> = Necessary;
pub(super) static ZIPAI_UNNECESSARY_TILES_MAP: Unnecessary<7> = Unnecessary;
