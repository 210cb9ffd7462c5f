//! PXGF streams read, written, checked and listed, by the written rules and
//! with the standard library alone.
//!
//! The layers, from the bytes upwards: [`order`] reads numbers, [`search`]
//! finds sync words, [`frame`] judges one place, [`walk`] cuts a stream into
//! items, [`check`] judges bodies and gives what [`body`] names, [`state`] and
//! [`cover`] decide what a data chunk means, [`reader`] joins them, and
//! [`samples`] copies numbers out; [`cursor`] lets both begin anywhere, with
//! any state. On top stand [`mod@list`], [`mod@dump`], [`filecheck`] and
//! [`write`](mod@write), and [`rows`] bounds how many items there are;
//! [`make`](mod@make) and [`recordings`] put streams together, [`examples`]
//! has what the example programs print, and [`trials`] holds what is compared.

pub mod body;
pub mod check;
pub mod compose;
pub mod cover;
pub mod cursor;
pub mod dump;
pub mod examples;
pub mod filecheck;
pub mod frame;
pub mod kind;
pub mod list;
pub mod make;
pub mod order;
pub mod pack;
pub mod possible;
pub mod reader;
pub mod recordings;
pub mod rng;
pub mod rows;
pub mod samples;
pub mod search;
pub mod state;
pub mod trials;
pub mod utf8;
pub mod values;
pub mod verdicts;
pub mod walk;
pub mod write;

pub use body::{Body, Fault};
pub use check::check_text;
pub use kind::Kind;
pub use order::Order;
pub use reader::{Bookmark, Item, Reader, Verdict};
pub use samples::{CopyRefusal, Ready};
pub use search::{find_order, search};
pub use walk::{Cause, Walk};
