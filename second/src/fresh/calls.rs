//! C requests: a graph, and calls that mostly make sense on it.

use super::{damage, graphs, Random};
use crate::graph::{Graph, CALL, CALL_EDGE, CHECK, TRANSFER_EDGE};
use crate::machine::MOST_FRAMES;
use crate::requests::{
    graph_numbers, printed_refusal, spaced_numbers, Call, Request, Session, LONGEST_BODY,
};
use crate::sets;
use crate::tally::Tally;

/// The longest slices and the largest buffer that the protocol has.
const LONGEST_NODE_SLICE: usize = 1_025;
const LONGEST_EDGE_SLICE: usize = 4_097;
const LARGEST_BUFFER: u64 = 400_000;

pub fn request(random: &mut Random) -> Request {
    let graph = match random.below(500) {
        0 => graphs::large(random),
        1..=90 => damage::damaged(random),
        91..=93 => graphs::shape(random),
        _ => graphs::usual(random),
    };
    let mut talk = Talk::about(graph, random);
    talk.call(Call::Check);
    talk.ask_before_anything_is_lent();
    talk.solve();
    talk.ask_verdicts();
    for _ in 0..talk.random.between(1, 3) {
        talk.some_scene();
    }
    talk.request()
}

pub(super) struct Talk<'a> {
    pub(super) random: &'a mut Random,
    /// Follows the calls, so that the next one can be chosen by what the last one led to.
    pub(super) session: Session,
    body: String,
    unread: Tally,
}

impl Talk<'_> {
    pub(super) fn about(graph: Graph, random: &mut Random) -> Talk<'_> {
        let body = spaced_numbers(&graph_numbers(&graph));
        Talk { random, session: Session::on(graph), body, unread: Tally::default() }
    }

    pub(super) fn request(self) -> Request {
        Request { letter: b'C', body: self.body.into_bytes() }
    }

    /// Left out if the request would become longer than its head can say.
    pub(super) fn call(&mut self, call: Call) {
        let numbers = spaced_numbers(&call.numbers());
        if self.body.len() + 1 + numbers.len() <= LONGEST_BODY {
            self.body += " ";
            self.body += &numbers;
            self.session.answer(&call, &mut self.unread);
        }
    }

    fn some_scene(&mut self) {
        match self.random.below(40) {
            0 => self.long_stack(),
            1..=14 => self.run(),
            15..=22 => self.some_stack(),
            23..=28 => self.lend_sets(),
            29..=34 => self.print_result(),
            35..=38 => self.print_refusal(),
            _ => self.solve(),
        }
    }

    fn ask_before_anything_is_lent(&mut self) {
        if self.random.one_in(20) {
            self.inspect();
            self.step();
        }
    }

    /// The slice's length where N itself is damaged and can't be one.
    fn node_slice(&self) -> usize {
        self.session.graph.kinds.len()
    }

    fn right_lengths(&self) -> [usize; 4] {
        let (nodes, edges) = (self.node_slice(), self.session.graph.froms.len());
        [nodes, nodes, edges, edges]
    }

    pub(super) fn solve_into_right_lengths(&mut self) {
        let lengths = self.right_lengths();
        self.call(Call::Solve { lengths });
    }

    fn solve(&mut self) {
        let mut lengths = self.right_lengths();
        if self.random.one_in(10) {
            let place = self.random.below(4);
            let length = lengths[place];
            let other = self.random.below(40);
            lengths[place] = self.random.pick(&[length + 1, length.saturating_sub(1), 0, other]);
        }
        let longest =
            [LONGEST_NODE_SLICE, LONGEST_NODE_SLICE, LONGEST_EDGE_SLICE, LONGEST_EDGE_SLICE];
        let lengths = [0, 1, 2, 3].map(|place| lengths[place].min(longest[place]));
        self.call(Call::Solve { lengths });
    }

    fn ask_verdicts(&mut self) {
        let kinds = &self.session.graph.kinds;
        let checks: Vec<usize> = (0..kinds.len()).filter(|&node| kinds[node] == CHECK).collect();
        let most = if self.session.graph.check().is_ok() { 30 } else { 2 };
        for node in checks.into_iter().take(most) {
            self.call(Call::Verdict { node: node as u64 });
        }
        if self.random.one_in(3) {
            let node = self.some_node();
            self.call(Call::Verdict { node });
        }
    }

    /// Mostly below N.
    fn some_node(&mut self) -> u64 {
        let n = self.session.graph.n as u64;
        let below = self.random.below(self.node_slice().max(1)) as u64;
        match self.random.below(12) {
            0 => self.random.pick(&[n, n.wrapping_add(1), 1_024, 65_536, 1 << 32, u64::MAX]),
            _ => below,
        }
    }

    /// Mostly below K, and often among the grants of the top's node.
    fn some_permission(&mut self) -> u64 {
        let k = self.session.graph.k as u64;
        let below = self.random.below(self.session.graph.k.clamp(1, 64)) as u64;
        let granted = self.grants_of_top();
        match self.random.below(15) {
            0 => self.random.pick(&[k, k.wrapping_add(1), 63, 64, 65, 256, 1 << 32, u64::MAX]),
            1..=7 if !granted.is_empty() => self.random.pick(&granted) as u64,
            _ => below,
        }
    }

    fn grants_of_top(&self) -> Vec<usize> {
        let Session { graph, stack, height, .. } = &self.session;
        let top = height.checked_sub(1).and_then(|place| stack.get(place as usize));
        let grants = top.and_then(|&node| graph.grants.get(usize::from(node)));
        sets::members(grants.copied().unwrap_or(sets::EMPTY))
    }

    fn inspect(&mut self) {
        for _ in 0..self.random.between(1, 3) {
            let permission = self.some_permission();
            self.call(Call::Full { permission });
            self.call(Call::Quick { permission });
        }
    }

    fn run(&mut self) {
        let length = match self.random.below(10) {
            0 => self.random.between(0, 2),
            1 => self.random.between(20, 60),
            _ => self.random.between(2, 14),
        };
        let slice = self.some_nodes(length);
        self.call(Call::LendStack { height: 0, slice });
        for _ in 0..self.random.between(1, 25) {
            let before = (self.session.height, self.session.stack.clone());
            self.step();
            if self.random.one_in(4) {
                self.inspect();
            }
            // Most often a run that a step was refused in has come to its end.
            let stands = before == (self.session.height, self.session.stack.clone());
            if stands && self.random.one_in(3) {
                return;
            }
        }
    }

    /// Nodes that the rules lead to, inspection set aside.
    pub(super) fn next_nodes(&self) -> Vec<u64> {
        let Session { graph, stack, height, .. } = &self.session;
        let height = *height as usize;
        if graph.check().is_err() || height > stack.len() {
            return vec![];
        }
        if height == 0 {
            return (0..graph.n).filter(|&n| graph.is_entry(n)).map(|n| n as u64).collect();
        }
        let top = usize::from(stack[height - 1]);
        match graph.kinds.get(top) {
            Some(&CALL) => ends(graph, top, CALL_EDGE),
            Some(&CHECK) => ends(graph, top, TRANSFER_EDGE),
            _ if height == 1 => vec![],
            _ => ends(graph, usize::from(stack[height - 2]), TRANSFER_EDGE),
        }
    }

    fn step(&mut self) {
        let leading = self.next_nodes();
        let next = match leading.is_empty() || self.random.one_in(8) {
            true => self.some_node(),
            false => self.random.pick(&leading),
        };
        self.call(Call::Step { next });
    }

    pub(super) fn some_nodes(&mut self, length: usize) -> Vec<u16> {
        let nodes = self.node_slice().max(1);
        (0..length).map(|_| self.random.below(nodes) as u16).collect()
    }

    /// A stack that steps need not lead to; at times no stack at all.
    fn some_stack(&mut self) {
        let length = self.random.between(0, 12);
        let mut slice = self.some_nodes(length);
        let mut height = self.random.between(0, length) as u64;
        match self.random.below(12) {
            0 => height = self.random.pick(&[length as u64 + 1, 1 << 32, u64::MAX]),
            1 if length > 0 => {
                let n = self.session.graph.n.min(65_535) as u16;
                let place = self.random.below(length);
                slice[place] = self.random.pick(&[n, n, 1_024, 65_535]);
            }
            _ => (),
        }
        self.call(Call::LendStack { height, slice });
        self.inspect();
        self.step();
        if self.random.one_in(2) {
            self.inspect();
            self.step();
        }
    }

    fn long_stack(&mut self) {
        let length = match self.random.below(3) {
            0 => MOST_FRAMES,
            _ => self.random.between(1_000, 1_025),
        };
        let slice = match self.calls_itself() {
            Some(node) => vec![node; length],
            None => self.some_nodes(length),
        };
        let lowered = self.random.pick(&[0, 0, 1, 2, 3, 500, length]);
        let height = (length - lowered) as u64;
        self.call(Call::LendStack { height, slice });
        self.inspect();
        for _ in 0..lowered.min(3) + 1 {
            self.step_on_top();
        }
        self.inspect();
    }

    fn calls_itself(&self) -> Option<u16> {
        let graph = &self.session.graph;
        let edges = graph.froms.iter().zip(&graph.tos).zip(&graph.ways);
        let mut loops = edges.filter(|((from, to), way)| from == to && **way == CALL_EDGE);
        loops.next().map(|((from, _), _)| *from)
    }

    fn step_on_top(&mut self) {
        match self.calls_itself() {
            Some(node) => self.call(Call::Step { next: node.into() }),
            None => self.step(),
        }
    }

    fn lend_sets(&mut self) {
        let denied = self.some_sets();
        let granted = self.some_sets();
        self.call(Call::LendSets { denied, granted });
        self.ask_verdicts();
        self.inspect();
        if self.random.one_in(2) {
            self.print_result();
        }
    }

    fn some_sets(&mut self) -> Vec<u64> {
        let nodes = self.node_slice();
        let length = match self.random.below(20) {
            0 => nodes + 1,
            1 => nodes.saturating_sub(1),
            2 => self.random.below(3),
            _ => nodes,
        };
        let k = self.session.graph.k.clamp(1, 64);
        let with_more = self.random.one_in(3);
        let sets = 0..length.min(LONGEST_NODE_SLICE);
        sets.map(|_| graphs::some_set(self.random, if with_more { 64 } else { k })).collect()
    }

    fn print_result(&mut self) {
        let fitting = self.session.result_rows().map_or(0, |rows| rows.len());
        let length = self.some_length(fitting as u64);
        self.call(Call::PrintResult { length });
    }

    fn print_refusal(&mut self) {
        for _ in 0..self.random.between(1, 4) {
            let number = self.random.between(1, 12) as u64;
            let near = self.random.below(5_200) as u64;
            let any = self.random.number();
            let place = self.random.pick(&[0, 1, 9, 10, near, near, any, u64::MAX]);
            let length = self.some_length(printed_refusal(number, place).len() as u64);
            self.call(Call::PrintRefusal { number, place, length });
        }
    }

    fn some_length(&mut self, fitting: u64) -> u64 {
        let any = self.random.below(LARGEST_BUFFER as usize + 1) as u64;
        let short = self.random.below(fitting as usize + 1) as u64;
        let less = fitting.saturating_sub(1);
        self.random.pick(&[
            fitting,
            fitting,
            fitting,
            less,
            less,
            fitting + 1,
            0,
            short,
            any,
            LARGEST_BUFFER,
        ])
    }
}

fn ends(graph: &Graph, from: usize, way: u8) -> Vec<u64> {
    let leaving = |&edge: &usize| graph.from(edge) == from && graph.ways[edge] == way;
    (0..graph.m).filter(leaving).map(|edge| graph.to(edge) as u64).collect()
}
