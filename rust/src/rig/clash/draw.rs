//! `rig draw`: a picture of one load, its block with the waveform or an SVG document.

use super::boards::Boards;
use super::load::Load;
use super::rehearsal::Result;
use super::{block, svg};
use crate::rig::arguments::Options;

pub fn picture(load: &Load, boards: &Boards, result: &Result, options: &Options) -> String {
    match result {
        _ if !options.svg => block::block(load, boards, result, options),
        Result::Rehearsed(rehearsal) => svg::document(load, boards, rehearsal),
        _ => String::new(),
    }
}
