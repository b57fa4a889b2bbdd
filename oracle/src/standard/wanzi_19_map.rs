//! Stands for the map of 1m/9m.

use super::lookup::{Necessary, Numbers, Unnecessary};

pub(super) static WANZI_19_REPLACEMENT_NUMBER_MAP: Numbers<2> = Numbers;
pub(super) static WANZI_19_NECESSARY_TILES_MAP: Necessary<2> = Necessary;
pub(super) static WANZI_19_UNNECESSARY_TILES_MAP: Unnecessary<2> = Unnecessary;
