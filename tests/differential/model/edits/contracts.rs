//! The wrong programs of docs/RULES.md, "How firm each contract is". The one that tells stalled without a search stands with the steps.

use super::Edit;
use crate::interface::{Areas, Stream, Told, Wrote, STRETCHED};
use crate::model::order::Order;
use crate::model::rules::{Part, Right};
use crate::model::volume::Volume;
use crate::model::write::Write;
use crate::model::{Room, Work};

edits! {
    "Contracts";
    CopiesEveryWrite, "every write copies", Write {
        fn stretches(&self, _: f32) -> bool { false }
    }
    CopiesLaterWrites, "the first write stretches, later ones copy", Write {
        fn local_speed(&self, stream: &Stream, held: usize) -> f32 {
            if stream.prev_period == 0 { Right.local_speed(stream, held) } else { 1.0 }
        }
    }
    OneFixedOutcome, "one fixed outcome", Write {
        fn commit(&self, work: Work, areas: Areas<'_>) -> Wrote { Right.commit(Work { outcome: STRETCHED, ..work }, areas) }
    }
    SilenceGoesOut, "silence goes out", Volume {
        fn scale(&self, samples: &mut [i16], _: f32) { samples.fill(0); }
    }
    RefusesAlways, "every write is refused", Order {
        fn refuse_in_turn(&self, full: bool, room: Room, process: &dyn Fn(Room) -> Result<Work, u32>) -> Result<Work, u32> {
            Right.refuse_in_turn(full, room, process).and(Err(7))
        }
    }
    StreamAsItCame, "a write hands the stream back as it came", Write {
        fn commit(&self, work: Work, _: Areas<'_>) -> Wrote {
            Wrote { refusal: 0, told: Told { outcome: work.outcome, passed: work.passed, sum: 0 }, stream: work.entering }
        }
    }
    InventedFrame, "a frame more than was made", Write {
        fn commit(&self, work: Work, areas: Areas<'_>) -> Wrote {
            let room = areas.output.len() / work.channels();
            let mut wrote = Right.commit(work, areas);
            wrote.stream.waiting += usize::from(wrote.stream.waiting < room);
            wrote
        }
    }
}
