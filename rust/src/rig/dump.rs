//! `rig dump`: a record of stamps and levels in, a Value Change Dump and a last line out.

use super::decode::Record;
use super::files::Contents;
use super::text::counted;
use crate::dump::{dump, LONGEST};

pub fn dumped(contents: &Contents) -> String {
    let record = match Record::read(contents) {
        Ok(record) => record,
        Err(error) => return error + "\n",
    };
    let mut room = vec![0; LONGEST];
    match dump(&record.stamps, &record.levels, &mut room) {
        Ok(count) => {
            let text = String::from_utf8_lossy(&room[..count]);
            let samples = counted(record.stamps.len(), "sample");
            format!("{text}ok {} for {samples}\n", counted(count, "byte"))
        }
        Err(refusal) => record.refused(refusal) + "\n",
    }
}
