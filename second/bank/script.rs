//! The random script of the bank selects: sequences that each begin with a fresh start, walk the
//! index over its places in every way, and decode cycles of all kinds before and after the
//! registers are written (document 02, request (vi)).

use crate::bank::accesses::{index, lanes, other_lanes};
use crate::bank::caller::Caller;
use crate::bank::maps::{map, SAMPLE, TURN};
use crate::bank::places::{Place, PLACES};
use crate::bank::run::Cycle;

/// A script of that many sequences.
pub fn script(seed: u64, count: u64) -> Vec<u8> {
    let count = count as usize;
    let mut caller = Caller::new(seed);
    while caller.sequences() < count {
        scene(&mut caller);
    }
    caller.script(count)
}

fn scene(caller: &mut Caller) {
    match caller.below(20) {
        0 => walk(caller),
        1 => laid(caller),
        2..=5 => decoded_between(caller),
        6 | 7 => turns(caller),
        8 => kinds(caller),
        _ => any(caller),
    }
}

/// Calls of any sort.
fn any(caller: &mut Caller) {
    caller.start(index(caller), map(caller));
    for _ in 0..4 + caller.below(11) {
        match caller.below(10) {
            0 | 1 => caller.read(lanes(caller)),
            2..=4 => caller.write_any(lanes(caller)),
            5 | 6 => caller.decode_again(),
            _ => caller.decode_any(),
        }
    }
}

/// Accesses from any index over the last place and on, so that every place is met; accesses that
/// are refused, and decodes, among them.
fn walk(caller: &mut Caller) {
    caller.start(index(caller), map(caller));
    let writes = caller.below(3);
    for _ in 0..PLACES + 1 + caller.below(5) {
        match caller.below(12) {
            0 => caller.read(other_lanes(caller)),
            1 => caller.write_any(other_lanes(caller)),
            2 => caller.decode_any(),
            _ => {}
        }
        if writes > caller.below(2) {
            caller.write_any(3);
        } else {
            caller.read(3);
        }
    }
}

/// A map laid half by half, as a driver does it after reset; then cycles decoded under it, and
/// perhaps the map read back.
fn laid(caller: &mut Caller) {
    let first = caller.pick(&[0, 0, 16, u32::MAX - 15]);
    caller.start(first, map(caller));
    let new = caller.pick(&[SAMPLE, map(caller)]);
    for place in 0..PLACES {
        caller.write(3, Place::of(place).get(&new));
    }
    for _ in 0..3 + caller.below(4) {
        caller.decode_any();
    }
    if caller.one_in(4) {
        (0..PLACES).for_each(|_| caller.read(3));
    }
}

/// One cycle, decoded again after each of some writes.
fn decoded_between(caller: &mut Caller) {
    caller.start(index(caller), map(caller));
    caller.decode_any();
    let cycle = caller.last();
    for _ in 0..2 + caller.below(4) {
        caller.write_any(lanes(caller));
        caller.decode(cycle);
    }
}

/// Refreshes under one control word, with each value of address bits 17 and 16.
fn turns(caller: &mut Caller) {
    caller.start(index(caller), map(caller));
    caller.decode_any();
    let Cycle {
        address, control, ..
    } = caller.last();
    for turn in 0..4 {
        caller.decode(Cycle {
            kind: 1,
            address: address & !TURN | turn << 16,
            control,
        });
    }
    caller.read(lanes(caller));
}

/// One address and control word in cycles of each kind, and of one that isn't known.
fn kinds(caller: &mut Caller) {
    caller.start(index(caller), map(caller));
    caller.decode_any();
    for kind in 0..4 {
        let cycle = caller.last();
        caller.decode(Cycle { kind, ..cycle });
    }
    caller.write_any(lanes(caller));
}
