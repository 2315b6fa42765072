//! Sessions that fill a store of the largest capacity.

use crate::case::{cache_words, Case, Kind, Sizes};
use crate::draft::Draft;
use crate::rng::Rng;
use crate::sessions::call;

/// Fills a store that is longer than the largest capacity: "at most 65,535".
pub fn make(rng: &mut Rng) -> Case {
    let mut draft = Draft::new(rng, 65_535);
    dense(&mut draft);
    grow(&mut draft, 0);
    draft.tally.peak = 0;
    grow(&mut draft, 3);
    // Refused for want of places, and accepted once a collection has made some.
    draft.say("lows 4 0 16777214");
    for _ in 0..draft.rng.between(3, 12) {
        call(&mut draft, 0, 2);
    }
    for line in ["collect", "lows 4 0 16777214"] {
        draft.say(line);
    }
    let text = draft.text;
    let spare = rng.below(64);
    Case {
        kind: Kind::Session,
        earlier: None,
        stepwise: false,
        sizes: Sizes {
            store_bytes: 16 * 65_536 + spare,
            cache_words: cache_words(rng),
            out_bytes: 16 * text.len(),
            dirt: rng.next(),
        },
        text,
    }
}

/// Adds constants to register d, each time new nodes, until full, and asks for its mask.
fn grow(draft: &mut Draft, d: usize) {
    while draft.tally.peak <= draft.tally.capacity {
        let w = draft.rng.below(65_537);
        draft.say(&format!("put 1 {w}"));
        draft.say(&format!("add {d} {d} 1"));
    }
    draft.say(&format!("on {d}"));
}

/// Register 0 becomes a tensor over ten indices with about a thousand nodes: a sum of gates, each
/// times a random weight.
fn dense(draft: &mut Draft) {
    draft.say("put 0 1");
    for q in 0..5 {
        for name in ["H", "Y", "T"] {
            let w = draft.rng.between(2, 65_536);
            draft.say(&format!("gate 1 {name} {q}"));
            draft.say(&format!("put 2 {w}"));
            draft.say("cont 1 1 2 0");
            draft.say("add 0 0 1");
        }
    }
    // A tensor over one index grows by one node at a time, until the last place is filled.
    for line in ["gate 3 T 7", "put 1 1", "cont 3 3 1 4194304"] {
        draft.say(line);
    }
    for line in ["drop 1", "drop 2", "collect"] {
        draft.say(line);
    }
}
