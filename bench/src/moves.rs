//! How many bytes a step by value moves: the library's cursor and the answer of its step, as C lays them out.

// The types stand here for their sizes alone.
#![allow(dead_code)]

#[repr(C)]
struct Held(bool, i64);

#[repr(C)]
struct Band(bool, i64, i64);

#[repr(C)]
struct Level(bool, f32);

#[repr(C)]
struct Packing(usize, bool, u32, [u32; 16]);

#[repr(C)]
struct Hertz(usize, [i64; 16]);

#[repr(C)]
struct Gains(usize, [f32; 16]);

#[repr(C)]
struct Sums([bool; 16], [f32; 16]);

#[repr(C)]
struct State {
    numbers: [Held; 4],
    band: Band,
    levels: [Level; 3],
    group: Packing,
    frequencies: Hertz,
    gains: Gains,
    sums: Sums,
    mark: bool,
}

#[repr(C)]
struct Cursor {
    place: usize,
    in_step: bool,
    state: State,
}

/// A chunk's place, code and size, and its verdict with a time and a count.
#[repr(C)]
struct Item(u8, usize, u32, usize, (u8, i64, usize));

#[repr(C)]
struct Answer {
    item: Item,
    shown: State,
    cursor: Cursor,
}

pub const CURSOR: usize = size_of::<Cursor>();
pub const ANSWER: usize = size_of::<Answer>();
