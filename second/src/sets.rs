//! Permission sets as the bits of a `u64`.

pub const EMPTY: u64 = 0;

pub fn all(k: usize) -> u64 {
    // A shift by 64 would overflow, and every larger K has all 64 bits too.
    if k >= 64 {
        u64::MAX
    } else {
        (1 << k) - 1
    }
}

pub fn lies_within(set: u64, other: u64) -> bool {
    set & !other == 0
}

/// `permission` must be below 64.
pub fn holds(set: u64, permission: usize) -> bool {
    set >> permission & 1 == 1
}

/// `permission` must be below 64.
pub fn add(set: u64, permission: usize) -> u64 {
    set | 1 << permission
}

pub fn members(set: u64) -> Vec<usize> {
    (0..64).filter(|&p| holds(set, p)).collect()
}
