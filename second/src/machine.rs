//! The two inspections and the step.

use crate::graph::{Graph, Refusal, CALL, CALL_EDGE, CHECK, TRANSFER_EDGE};
use crate::sets;

pub const MOST_FRAMES: usize = 1_024;

#[derive(Clone, Copy, Debug, PartialEq, Eq)]
pub struct Inspection {
    pub passes: bool,
    pub frames: usize,
}

pub fn full_inspection(
    graph: &Graph,
    stack: &[u16],
    height: usize,
    permission: usize,
) -> Result<Inspection, Refusal> {
    graph.check()?;
    judge_permission(graph, permission)?;
    judge_stack(graph, stack, height)?;
    Ok(inspect(stack, height, |node| full_answer(graph, node, permission)))
}

pub fn quick_inspection(
    graph: &Graph,
    denied: &[u64],
    granted: &[u64],
    stack: &[u16],
    height: usize,
    permission: usize,
) -> Result<Inspection, Refusal> {
    if denied.len() != graph.n || granted.len() != graph.n {
        return Err(Refusal::without_place(1));
    }
    graph.check()?;
    judge_permission(graph, permission)?;
    judge_stack(graph, stack, height)?;
    Ok(inspect(stack, height, |node| quick_answer(denied[node], granted[node], permission)))
}

/// Returns the new height; a refusal leaves the stack as it was.
pub fn step(
    graph: &Graph,
    stack: &mut [u16],
    height: usize,
    next: usize,
) -> Result<usize, Refusal> {
    graph.check()?;
    if next >= graph.n {
        return Err(Refusal::without_place(5));
    }
    judge_stack(graph, stack, height)?;
    let (place, new_height) = match move_to(graph, stack, height, next) {
        None => return Err(Refusal::without_place(8)),
        Some(Move::Push) => (height, height + 1),
        Some(Move::PassCheck) => {
            let permission = graph.checked_permission(node_at(stack, height - 1));
            if !inspect(stack, height, |node| full_answer(graph, node, permission)).passes {
                return Err(Refusal::without_place(9));
            }
            (height - 1, height)
        }
        Some(Move::Return) => (height - 2, height - 1),
    };
    if place >= stack.len() {
        return Err(Refusal::without_place(10));
    }
    stack[place] = next as u16; // next is below N, so at most 1,023
    Ok(new_height)
}

enum Move {
    Push,
    PassCheck,
    Return,
}

/// The rule that leads to the next node, inspection set aside.
fn move_to(graph: &Graph, stack: &[u16], height: usize, next: usize) -> Option<Move> {
    if height == 0 {
        return graph.is_entry(next).then_some(Move::Push);
    }
    let top = node_at(stack, height - 1);
    match graph.kinds[top] {
        CALL => graph.has_edge(top, next, CALL_EDGE).then_some(Move::Push),
        CHECK => graph.has_edge(top, next, TRANSFER_EDGE).then_some(Move::PassCheck),
        _ if height == 1 => None,
        _ => {
            let below = node_at(stack, height - 2);
            graph.has_edge(below, next, TRANSFER_EDGE).then_some(Move::Return)
        }
    }
}

/// Goes down from the top until a frame answers.
fn inspect(
    stack: &[u16],
    height: usize,
    frame_answer: impl Fn(usize) -> Option<bool>,
) -> Inspection {
    let mut frames = 0;
    for place in (0..height).rev() {
        frames += 1;
        if let Some(passes) = frame_answer(node_at(stack, place)) {
            return Inspection { passes, frames };
        }
    }
    Inspection { passes: true, frames }
}

fn full_answer(graph: &Graph, node: usize, permission: usize) -> Option<bool> {
    if !sets::holds(graph.grants[node], permission) {
        Some(false)
    } else if graph.is_privileged(node) {
        Some(true)
    } else {
        None
    }
}

fn quick_answer(denied: u64, granted: u64, permission: usize) -> Option<bool> {
    if sets::holds(denied, permission) {
        Some(false)
    } else if sets::holds(granted, permission) {
        Some(true)
    } else {
        None
    }
}

fn judge_permission(graph: &Graph, permission: usize) -> Result<(), Refusal> {
    if permission < graph.k {
        Ok(())
    } else {
        Err(Refusal::without_place(5))
    }
}

fn judge_stack(graph: &Graph, stack: &[u16], height: usize) -> Result<(), Refusal> {
    let sound = stack.len() <= MOST_FRAMES
        && height <= stack.len()
        && (0..height).all(|place| node_at(stack, place) < graph.n);
    if sound {
        Ok(())
    } else {
        Err(Refusal::without_place(6))
    }
}

fn node_at(stack: &[u16], place: usize) -> usize {
    usize::from(stack[place])
}
