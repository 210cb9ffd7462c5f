//! Streams made from a seed: whole, odd and damaged ones.

mod bodies;
mod damage;
mod files;
mod frames;
mod groups;
mod pieces;
mod scenes;

use crate::compose::Composer;
use crate::list;
use crate::order::Order;
use crate::rng::Rng;

/// The most bytes of a stream, but for those made too long to be listed.
pub const MOST_BYTES: usize = 60_000;

/// A stream in the making.
pub struct Maker {
    rng: Rng,
    out: Composer,
}

/// A recipe; its second argument tells the turns of one recipe apart.
type Scene = fn(&mut Maker, usize);

const SCENES: [Scene; 14] = [
    Maker::soup,
    Maker::lacks,
    Maker::ready,
    Maker::groups,
    Maker::faults,
    Maker::regained,
    Maker::frames,
    Maker::file,
    Maker::texts,
    Maker::bandwidths,
    Maker::orders,
    Maker::marks,
    Maker::large,
    Maker::sums,
];

/// The stream of this seed.
pub fn make(seed: u64) -> Vec<u8> {
    let mut rng = Rng::new(seed);
    match seed % 100 {
        97 => return too_long(rng),
        98 => return damage::without_sync(&mut rng),
        99 => return Vec::new(),
        _ => {}
    }
    let scenes = SCENES.len() as u64;
    let scene = SCENES[(seed % scenes) as usize];
    let harmed = rng.chance(4);
    let mut maker = Maker::new(rng);
    scene(&mut maker, (seed / scenes) as usize);
    let Maker { mut rng, out } = maker;
    let mut bytes = out.into_bytes();
    if harmed {
        damage::harm(&mut rng, &mut bytes);
    }
    bytes.truncate(MOST_BYTES);
    bytes
}

/// A stream of more bytes than a listing takes, often by only one.
fn too_long(rng: Rng) -> Vec<u8> {
    let mut maker = Maker::new(rng);
    maker.ready(0);
    let Maker { mut rng, out } = maker;
    let mut bytes = out.into_bytes();
    let over = if rng.chance(2) {
        1
    } else {
        1 + rng.below(1000)
    };
    bytes.resize(list::MOST_BYTES + over, 0);
    bytes
}

impl Maker {
    fn new(mut rng: Rng) -> Self {
        let order = rng.pick(&[Order::Big, Order::Little]);
        Maker {
            rng,
            out: Composer::new(order),
        }
    }
}
