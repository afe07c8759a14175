//! Made-up requests. Each follows from the seed and its own index alone.

mod calls;
mod damage;
mod graphs;
mod random;
mod text_damage;
mod texts;
mod walks;

pub use random::Random;

use crate::requests::Request;

/// Only requests that walk.
pub fn walk(seed: u64, index: u64) -> Request {
    walks::request(&mut Random::of(seed, index))
}

pub fn request(seed: u64, index: u64) -> Request {
    let mut random = Random::of(seed, index);
    match random.below(100) {
        0..=64 => calls::request(&mut random),
        65..=69 => walks::request(&mut random),
        70..=94 => texts::request(&mut random),
        _ => texts::request_with_lengths(&mut random),
    }
}
