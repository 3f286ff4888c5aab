//! The payload with the longest chain of sources.

use super::draft::Draft;

/// All objects that there can be, in all blocks. In block 0 the gain of each is
/// that of the object before, and the last object takes it over from block to
/// block; the others are not active from block 1 on.
pub fn longest_chain() -> Vec<u8> {
    let (objects, blocks) = (159, 8);
    let mut content = Draft::default();
    content.flag(false); // discard
    content.field(2, 0); // no sample offset
    content.field(3, blocks - 1);
    for _ in 0..blocks {
        content.field(6, 0); // start
        content.field(2, 0); // ramp
    }
    content.flag(true); // no reserved data
    for object in 0..objects {
        content.flag(false); // active
        content.field(2, 3); // gain index 3
        content.flag(true); // default priority
        content.field(6 + 6 + 1 + 4, 0); // position
        content.field(1, 0); // distance
        content.field(3 + 1, 0); // zone and elevation
        content.field(2, 0); // size
        content.field(1, 0); // screen
        content.flag(false); // snap
        content.flag(false); // additional data
        for _ in 1..blocks {
            if object + 1 < objects {
                content.field(2, 2); // not active, no additional data
            } else {
                content.field(1 + 2 + 2 + 1, 20); // reuse of both groups
            }
        }
    }
    let bytes = content.len().div_ceil(8);
    let mut payload = Draft::default();
    payload.field(2, 0); // version
    payload.grown(5, 7, objects - 1);
    payload.field(2, 2); // dynamic objects only, no LFE
    payload.flag(false); // no alternate ids
    payload.field(4, 1); // elements
    payload.field(4, 1); // an object element
    payload.size(bytes);
    let width = content.len();
    payload.content(content, width);
    payload.number(8 * bytes - width, 0);
    payload.bytes(false)
}
