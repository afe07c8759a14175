//! The solver on graphs that take it long, small enough to be stored.

use super::solver::judged;
use super::Case;
use crate::shapes::{chain, doubled, laps, ring};

pub fn cases() -> Vec<Case> {
    vec![
        judged("a chain of 100 calls, its edges listed backwards", &chain(64, 100)),
        judged("200 times the same edge", &doubled(64, 200)),
        judged("a ring of 8 segments, a lap for each permission", &ring(8, 3)),
        judged("a ring of 64 segments, a lap for each permission", &ring(64, 0)),
        judged("a ring at rest before the next permission of 8", &laps(8, 5)),
        judged("a ring at rest before the next permission of 64", &laps(64, 20)),
    ]
}
