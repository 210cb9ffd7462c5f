//! Steps and copies at cursors made at will.

use second::compose::Composer;
use second::cursor::{AnyState, Cursor, Held, HeldGroup, HeldList};
use second::kind::Kind;
use second::order::Order;
use second::{Cause, Item, Verdict};

/// A rate and a chunk of two reals behind it, which begins at 20.
fn stream() -> Vec<u8> {
    let mut stream = Composer::new(Order::Big);
    stream.long(Kind::Sr, 5).shorts(Kind::Ssnr, 1, &[3, -4]);
    stream.into_bytes()
}

fn at(place: usize, in_step: bool, state: AnyState) -> Cursor {
    Cursor {
        place,
        in_step,
        state,
    }
}

fn rated(value: i64) -> AnyState {
    AnyState {
        rate: Held {
            present: true,
            value,
        },
        ..AnyState::default()
    }
}

/// The number a step is refused with, 0 if it is not. A copy is then refused
/// with the same.
fn number(cursor: Cursor, stream: &[u8]) -> u32 {
    let number = cursor.step(Order::Big, stream).map_or_else(|n| n, |_| 0);
    if number != 0 {
        let mut out = [7];
        let copied = cursor.copy_shorts(Order::Big, stream, 9, &mut out);
        assert_eq!((copied, out), (Err(number), [7]));
    }
    number
}

#[test]
fn past_the_end_comes_first() {
    let stream = stream();
    let end = stream.len();
    for in_step in [true, false] {
        for state in [rated(1), rated(0)] {
            assert_eq!(number(at(end + 1, in_step, state), &stream), 2);
            assert_eq!(number(at(usize::MAX, in_step, state), &stream), 2);
        }
        assert_eq!(number(at(end, in_step, rated(1)), &stream), 0);
    }
    assert_eq!(number(at(end, true, rated(0)), &stream), 3);
}

#[test]
fn only_in_step_is_the_state_asked() {
    let stream = stream();
    assert_eq!(number(at(20, true, rated(0)), &stream), 3);
    let searching = at(20, false, rated(0));
    let step = searching.step(Order::Big, &stream).unwrap();
    assert_eq!((step.place, step.in_step), (stream.len(), true));
    // The state is emptied, so the rate is not there.
    let Some(Item::Chunk { verdict, .. }) = step.item else {
        panic!("a chunk stands there")
    };
    assert!(matches!(verdict, Verdict::Waits { time: 1, .. }));
}

#[test]
fn a_good_state_is_used() {
    let stream = stream();
    let cursor = at(20, true, rated(1));
    let mut out = [7; 3];
    assert_eq!(cursor.copy_shorts(Order::Big, &stream, 0, &mut out), Ok(2));
    assert_eq!(out, [3, -4, 7]);
    let numbers = [
        cursor.copy_shorts(Order::Big, &stream, 0, &mut out[..1]),
        cursor.copy_shorts(Order::Big, &stream, 1, &mut out[..1]),
        cursor.copy_patterns(Order::Big, &stream, 1, &mut []),
        at(0, true, rated(1)).copy_shorts(Order::Big, &stream, 1, &mut []),
        at(21, true, rated(1)).copy_shorts(Order::Big, &stream, 1, &mut []),
    ];
    assert_eq!(numbers, [33, 34, 35, 35, 35].map(Err));
    // A step from inside the chunk skips what is left of it.
    let step = at(21, true, rated(1)).step(Order::Big, &stream).unwrap();
    assert_eq!((step.place, step.in_step), (stream.len(), false));
}

/// At a begun sync word the cursor moves to the end, and is in step if it was.
#[test]
fn a_begun_sync_word_keeps_the_step() {
    let mut stream = stream();
    let place = stream.len();
    stream.extend([0xA1, 0xB2]);
    for in_step in [true, false] {
        let step = at(place, in_step, rated(1))
            .step(Order::Big, &stream)
            .unwrap();
        assert_eq!(step.item, Some(Item::Unfinished { place, len: 2 }));
        assert_eq!((step.place, step.in_step), (stream.len(), in_step));
    }
    // From its second byte on it is none.
    let step = at(place + 1, true, rated(1))
        .step(Order::Big, &stream)
        .unwrap();
    let skipped = Item::Skipped {
        place: place + 1,
        len: 1,
        cause: Cause::SyncMissing,
    };
    assert_eq!(step.item, Some(skipped));
    assert_eq!((step.place, step.in_step), (stream.len(), false));
}

/// A rate, a dBTG of 20, gains of 1.5 and -0, and the sums 21.5 and 20.
fn summed() -> AnyState {
    let held = |value| Held {
        present: true,
        value,
    };
    let mut state = rated(1);
    state.total_gain = held(0x41A0_0000);
    state.gains = HeldList {
        n: 2,
        values: [0; 16],
    };
    state.gains.values[..2].copy_from_slice(&[0x3FC0_0000, 0x8000_0000]);
    state.sums[..2].copy_from_slice(&[held(0x41AC_0000), held(0x41A0_0000)]);
    state
}

#[test]
fn sums_of_the_state_are_shown() {
    let stream = stream();
    let step = at(20, true, summed()).step(Order::Big, &stream).unwrap();
    let Some(Item::Chunk {
        verdict: Verdict::Ready(ready),
        ..
    }) = step.item
    else {
        panic!("a ready chunk stands there")
    };
    let sums = ready.state.group_sums;
    assert_eq!(sums[..2], [Some(0x41AC_0000), Some(0x41A0_0000)]);
    assert_eq!(sums[2..], [None; 14]);
}

/// Each of them differs in one sum alone.
#[test]
fn sums_are_held_to_their_parts() {
    let stream = stream();
    for (channel, present, value) in [
        (0, true, 0x41A8_0000),
        (0, true, 0x41AC_0001),
        (0, false, 0),
        (0, false, 0x41AC_0000),
        (1, true, 0x7FC0_0000),
        (1, true, 0xC1A0_0000),
        (2, true, 0x41A0_0000),
        (2, true, 0),
        (2, false, 0x8000_0000),
        (15, true, 0x41A0_0000),
        (15, false, 1),
    ] {
        let mut state = summed();
        state.sums[channel] = Held { present, value };
        assert_eq!(number(at(20, true, state), &stream), 3);
        assert_eq!(number(at(20, false, state), &stream), 0);
        assert_eq!(number(at(99, true, state), &stream), 2);
    }
}

/// Each of them differs in one part alone.
#[test]
fn parts_are_held_to_their_sums() {
    let stream = stream();
    let changes: [fn(&mut AnyState); 6] = [
        |state| state.total_gain.value = 0x41A0_0001,
        |state| state.total_gain = Held::default(),
        |state| state.gains.values[0] = 0x3F80_0000,
        // 20 + 0 is 20 as well, and so is 20 + -0.
        |state| state.gains.values[1] = 0x0000_0000,
        |state| state.gains.n = 3,
        |state| state.gains = HeldList::default(),
    ];
    let numbers = changes.map(|change| {
        let mut state = summed();
        change(&mut state);
        number(at(20, true, state), &stream)
    });
    assert_eq!(numbers, [3, 3, 3, 0, 3, 3]);
}

#[test]
fn a_group_of_the_state_is_used() {
    let mut composer = Composer::new(Order::Little);
    composer.shorts(Kind::Gsnc, 1, &[1, 2, 3, 4]);
    let mut state = rated(1);
    state.group = HeldGroup {
        n: 2,
        iq: false,
        increment: 1,
        offsets: [0; 16],
    };
    state.group.offsets[0] = 1;
    let mut out = [7; 3];
    let copied = at(0, true, state).copy_shorts(Order::Little, composer.bytes(), 0, &mut out);
    assert_eq!((copied, out), (Ok(2), [4, 3, 7]));
}
