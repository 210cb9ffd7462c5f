//! The library's exported functions, one for each work.

use second::{Order, Ready};

extern "C" {
    fn bench_count(order: u32, s: *const u8, len: usize) -> usize;
    fn bench_step(order: u32, s: *const u8, len: usize) -> usize;
    fn bench_search(order: u32, s: *const u8, len: usize, from: usize) -> usize;
    fn bench_text(order: u32, body: *const u8, len: usize) -> u32;
    fn bench_write(
        order: u32,
        code: u32,
        body: *const u8,
        len: usize,
        out: *mut u8,
        room: usize,
        place: usize,
    ) -> usize;
    fn bench_shorts(
        order: u32,
        s: *const u8,
        len: usize,
        steps: usize,
        channel: usize,
        out: *mut i16,
        room: usize,
    ) -> usize;
    fn bench_patterns(
        order: u32,
        s: *const u8,
        len: usize,
        steps: usize,
        channel: usize,
        out: *mut u32,
        room: usize,
    ) -> usize;
}

fn number(order: Order) -> u32 {
    match order {
        Order::Big => 0,
        Order::Little => 1,
    }
}

// Each call below hands over slices that it holds; the functions require nothing else.

pub fn count(order: Order, s: &[u8]) -> usize {
    unsafe { bench_count(number(order), s.as_ptr(), s.len()) }
}

pub fn step(order: Order, s: &[u8]) -> usize {
    unsafe { bench_step(number(order), s.as_ptr(), s.len()) }
}

pub fn search(order: Order, s: &[u8], from: usize) -> usize {
    unsafe { bench_search(number(order), s.as_ptr(), s.len(), from) }
}

pub fn text(order: Order, body: &[u8]) -> u32 {
    unsafe { bench_text(number(order), body.as_ptr(), body.len()) }
}

pub fn write(order: Order, code: u32, body: &[u8], out: &mut [u8], place: usize) -> usize {
    let (room, out) = (out.len(), out.as_mut_ptr());
    unsafe {
        bench_write(
            number(order),
            code,
            body.as_ptr(),
            body.len(),
            out,
            room,
            place,
        )
    }
}

/// A number of either width, with the calls that copy such numbers.
pub trait Number: Copy + Default + PartialEq {
    /// The library's call, from the start of a stream; 0 where it is refused.
    fn copy(order: Order, s: &[u8], steps: usize, channel: usize, out: &mut [Self]) -> usize;

    /// The second program's call, on a chunk that it has read.
    fn copy_ready(ready: &Ready, channel: usize, out: &mut [Self]) -> usize;
}

impl Number for i16 {
    fn copy(order: Order, s: &[u8], steps: usize, channel: usize, out: &mut [i16]) -> usize {
        let (room, out) = (out.len(), out.as_mut_ptr());
        unsafe {
            bench_shorts(
                number(order),
                s.as_ptr(),
                s.len(),
                steps,
                channel,
                out,
                room,
            )
        }
    }

    fn copy_ready(ready: &Ready, channel: usize, out: &mut [i16]) -> usize {
        ready.copy_shorts(channel, out).unwrap_or(0)
    }
}

impl Number for u32 {
    fn copy(order: Order, s: &[u8], steps: usize, channel: usize, out: &mut [u32]) -> usize {
        let (room, out) = (out.len(), out.as_mut_ptr());
        unsafe {
            bench_patterns(
                number(order),
                s.as_ptr(),
                s.len(),
                steps,
                channel,
                out,
                room,
            )
        }
    }

    fn copy_ready(ready: &Ready, channel: usize, out: &mut [u32]) -> usize {
        ready.copy_patterns(channel, out).unwrap_or(0)
    }
}
