//! C requests that walk: steps, and both inspections of every stack on the way for every
//! permission; then the same of stacks that no run need reach, where the two may differ.

use super::calls::Talk;
use super::{graphs, Random};
use crate::requests::{Call, Request};

const STEPS: usize = 40;
/// Places of the slice that the walk goes on in.
const PLACES: usize = 40;
const OTHER_STACKS: usize = 12;
const HIGHEST_OTHER: usize = 8;

pub fn request(random: &mut Random) -> Request {
    let mut talk = Talk::about(graphs::for_walks(random), random);
    talk.solve_into_right_lengths();
    talk.walk();
    for _ in 0..OTHER_STACKS {
        talk.inspect_some_nodes();
    }
    talk.request()
}

impl Talk<'_> {
    fn walk(&mut self) {
        self.start_run();
        for _ in 0..STEPS {
            let next_nodes = self.next_nodes();
            let before = self.reached_stack();
            if !next_nodes.is_empty() {
                let next = self.random.pick(&next_nodes);
                self.call(Call::Step { next });
            }
            // At a return at the bottom, a check that is denied, or a slice that is full.
            if self.reached_stack() == before {
                self.start_run();
            }
            self.inspect_for_all();
        }
    }

    fn start_run(&mut self) {
        self.call(Call::LendStack { height: 0, slice: vec![0; PLACES] });
    }

    fn reached_stack(&self) -> Vec<u16> {
        self.session.stack[..self.session.height as usize].to_vec()
    }

    fn inspect_for_all(&mut self) {
        for permission in 0..self.session.graph.k as u64 {
            self.call(Call::Full { permission });
            self.call(Call::Quick { permission });
        }
    }

    fn inspect_some_nodes(&mut self) {
        let height = self.random.between(1, HIGHEST_OTHER);
        let slice = self.some_nodes(height);
        self.call(Call::LendStack { height: height as u64, slice });
        self.inspect_for_all();
    }
}
