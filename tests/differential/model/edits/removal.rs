//! Wrong edits of docs/RULES.md, "Moving the rest down".

use super::Edit;
use crate::model::flush::Flush;
use crate::model::rules::{Part, Right};

edits! {
    "Moving the rest down";
    RemovalTurnsRest, "the frames that remain are turned round", Flush {
        fn remove_front(&self, area: &mut [i16], count: usize, kept: usize) {
            Right.remove_front(area, count, kept);
            area[..kept].reverse();
        }
    }
    RemovalClearsBehind, "the places behind the frames that remain are cleared", Flush {
        fn remove_front(&self, area: &mut [i16], count: usize, kept: usize) {
            Right.remove_front(area, count, kept);
            area[kept..count + kept].fill(0);
        }
    }
    RemovalMovesOneMore, "one sample more than remain is moved", Flush {
        fn remove_front(&self, area: &mut [i16], count: usize, kept: usize) {
            Right.remove_front(area, count, (kept + 1).min(area.len() - count));
        }
    }
}
