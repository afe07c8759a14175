//! What a run of requests was answered, counted.

use std::fmt;

#[derive(Clone, Debug, Default, PartialEq, Eq)]
pub struct Tally {
    pub requests: u64,
    pub texts: u64,
    pub accepted_texts: u64,
    /// By the number of the call.
    pub calls: [u64; 10],
    /// By the number of the refusal; place 0 stays unused. Call 9 prints a refusal but gives none.
    pub refusals: [u64; 13],
    pub verdicts: [u64; 4],
    pub passes: u64,
    pub fails: u64,
    /// Of stacks that steps reach, by the solver's sets.
    pub reached: Pairs,
    /// Of stacks that were lent, by the solver's sets.
    pub unreached: Pairs,
}

/// A full inspection and a quick one right after it, of one stack for one permission.
#[derive(Clone, Debug, Default, PartialEq, Eq)]
pub struct Pairs {
    pub stacks: u64,
    pub pairs: u64,
    pub different: u64,
    /// Pairs in which the quick one looked at more frames.
    pub more_frames: u64,
    pub frames_by_full: u64,
    pub frames_by_quick: u64,
}

impl Tally {
    pub fn all_calls(&self) -> u64 {
        self.calls.iter().sum()
    }

    pub fn add(&mut self, other: &Tally) {
        self.requests += other.requests;
        self.texts += other.texts;
        self.accepted_texts += other.accepted_texts;
        add_each(&mut self.calls, &other.calls);
        add_each(&mut self.refusals, &other.refusals);
        add_each(&mut self.verdicts, &other.verdicts);
        self.passes += other.passes;
        self.fails += other.fails;
        self.reached.add(&other.reached);
        self.unreached.add(&other.unreached);
    }

    /// On every stack that was reached quick inspection answered as full and looked at no more
    /// frames.
    pub fn inspections_agree(&self) -> bool {
        self.reached.different == 0 && self.reached.more_frames == 0
    }
}

impl Pairs {
    fn add(&mut self, other: &Pairs) {
        self.stacks += other.stacks;
        self.pairs += other.pairs;
        self.different += other.different;
        self.more_frames += other.more_frames;
        self.frames_by_full += other.frames_by_full;
        self.frames_by_quick += other.frames_by_quick;
    }
}

fn add_each(sums: &mut [u64], more: &[u64]) {
    sums.iter_mut().zip(more).for_each(|(sum, more)| *sum += more);
}

impl fmt::Display for Tally {
    fn fmt(&self, out: &mut fmt::Formatter) -> fmt::Result {
        writeln!(out, "requests {}", self.requests)?;
        writeln!(out, "texts {}, accepted {}", self.texts, self.accepted_texts)?;
        writeln!(out, "calls {}, by number {}", self.all_calls(), numbered(0, &self.calls))?;
        writeln!(out, "refusals, by number {}", numbered(1, &self.refusals[1..]))?;
        writeln!(out, "verdicts, by number {}", numbered(0, &self.verdicts))?;
        writeln!(out, "inspections that pass {}, that fail {}", self.passes, self.fails)?;
        writeln!(out, "full and quick on stacks that steps reach: {}", self.reached)?;
        writeln!(out, "full and quick on other stacks: {}", self.unreached)
    }
}

impl fmt::Display for Pairs {
    fn fmt(&self, out: &mut fmt::Formatter) -> fmt::Result {
        let Pairs { stacks, pairs, different, more_frames, frames_by_full, frames_by_quick } = self;
        write!(out, "stacks {stacks}, pairs {pairs}, different answers {different}, ")?;
        write!(out, "more frames by quick {more_frames}, ")?;
        write!(out, "frames by full {frames_by_full}, by quick {frames_by_quick}")
    }
}

fn numbered(first: usize, counts: &[u64]) -> String {
    let named: Vec<String> = counts
        .iter()
        .enumerate()
        .map(|(place, count)| format!("{}: {count}", first + place))
        .collect();
    named.join(", ")
}
