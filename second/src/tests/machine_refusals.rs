use crate::build::{empty_graph, gateway};
use crate::graph::{Graph, Refusal};
use crate::machine::{full_inspection, quick_inspection, step};
use crate::solve::{solve_into, verdict};

fn refusal<T>(number: u8, place: usize) -> Result<T, Refusal> {
    Err(Refusal { number, place })
}

fn bad_in_every_graph_way() -> Vec<(Graph, u8, usize)> {
    let change = |alter: fn(&mut Graph)| {
        let mut graph = gateway();
        alter(&mut graph);
        graph
    };
    vec![
        (change(|g| g.tos.truncate(7)), 1, 0),
        (change(|g| g.kinds[3] = 3), 2, 3),
        (change(|g| g.tos[4] = 8), 3, 4),
        (change(|g| g.entries = vec![0; 8]), 4, 0),
    ]
}

#[test]
fn every_call_judges_the_graph_before_its_own_refusals() {
    for (graph, number, place) in bad_in_every_graph_way() {
        let sets = [0; 8];
        let mut stack = [99; 3];
        assert_eq!(verdict(&graph, &sets, &sets, 99), refusal(number, place));
        assert_eq!(full_inspection(&graph, &stack, 9, 99), refusal(number, place));
        let quick = quick_inspection(&graph, &sets, &sets, &stack, 9, 99);
        assert_eq!(quick, refusal(number, place));
        assert_eq!(step(&graph, &mut stack, 9, 99), refusal(number, place));
        assert_eq!(stack, [99; 3]);
    }
}

#[test]
fn the_solver_refuses_and_stores_nothing() {
    for (graph, number, place) in bad_in_every_graph_way() {
        let (mut a, mut b, mut c, mut d) = ([7; 8], [7; 8], [7; 8], [7; 8]);
        let answer = solve_into(&graph, &mut a, &mut b, &mut c, &mut d);
        assert_eq!(answer, refusal(number, place));
        assert_eq!([a, b, c, d], [[7; 8]; 4]);
    }
}

#[test]
fn the_solver_judges_each_lent_length() {
    for wrong in 0..4 {
        for length in [0, 7, 9] {
            let mut lent = [(); 4].map(|()| vec![7; 8]);
            lent[wrong] = vec![7; length];
            let before = lent.clone();
            let [a, b, c, d] = &mut lent;
            assert_eq!(solve_into(&gateway(), a, b, c, d), refusal(1, 0));
            assert_eq!(lent, before);
        }
    }
}

#[test]
fn lent_sets_of_a_wrong_length_are_1_before_all_else() {
    let mut graph = gateway();
    graph.kinds[0] = 9;
    let (fits, short, long) = ([0; 8], [0; 7], [0; 9]);
    for wrong in [&short[..], &long[..], &[]] {
        assert_eq!(verdict(&graph, wrong, &fits, 99), refusal(1, 0));
        assert_eq!(verdict(&graph, &fits, wrong, 99), refusal(1, 0));
        assert_eq!(quick_inspection(&graph, wrong, &fits, &[99], 1, 99), refusal(1, 0));
        assert_eq!(quick_inspection(&graph, &fits, wrong, &[99], 1, 99), refusal(1, 0));
    }
}

#[test]
fn verdict_refusals_5_and_7() {
    let sets = [0; 8];
    assert_eq!(verdict(&gateway(), &sets, &sets, 8), refusal(5, 0));
    assert_eq!(verdict(&gateway(), &sets, &sets, usize::MAX), refusal(5, 0));
    assert_eq!(verdict(&gateway(), &sets, &sets, 0), refusal(7, 0));
    assert_eq!(verdict(&gateway(), &sets, &sets, 3), refusal(7, 0));
}

#[test]
fn the_four_verdicts_from_lent_sets() {
    let (without, with) = ([0; 8], [1; 8]);
    assert_eq!(verdict(&gateway(), &without, &without, 2), Ok(0));
    assert_eq!(verdict(&gateway(), &without, &with, 2), Ok(1));
    assert_eq!(verdict(&gateway(), &with, &without, 2), Ok(2));
    assert_eq!(verdict(&gateway(), &with, &with, 2), Ok(3));
}

#[test]
fn a_permission_not_below_k_is_5_before_6() {
    let sets = [0; 8];
    assert_eq!(full_inspection(&gateway(), &[99], 1, 2), refusal(5, 0));
    assert_eq!(full_inspection(&gateway(), &[99], 1, usize::MAX), refusal(5, 0));
    assert_eq!(quick_inspection(&gateway(), &sets, &sets, &[99], 1, 2), refusal(5, 0));
    assert_eq!(step(&gateway(), &mut [99], 1, 8), refusal(5, 0));
}

#[test]
fn unsound_stacks_are_6() {
    let sets = [0; 8];
    let unsound: [(Vec<u16>, usize); 4] =
        [(vec![0; 1_025], 0), (vec![0, 2], 3), (vec![8, 2], 2), (vec![0, 2], usize::MAX)];
    for (stack, height) in unsound {
        assert_eq!(full_inspection(&gateway(), &stack, height, 0), refusal(6, 0));
        let quick = quick_inspection(&gateway(), &sets, &sets, &stack, height, 0);
        assert_eq!(quick, refusal(6, 0));
        assert_eq!(step(&gateway(), &mut stack.clone(), height, 0), refusal(6, 0));
    }
}

#[test]
fn quick_inspection_looks_at_denied_first() {
    let with = [1; 8];
    let quick = quick_inspection(&gateway(), &with, &with, &[0, 2], 2, 0).unwrap();
    assert_eq!((quick.passes, quick.frames), (false, 1));
}

#[test]
fn quick_inspection_past_the_bottom_passes() {
    let without = [0; 8];
    let quick = quick_inspection(&gateway(), &without, &without, &[1, 4, 5], 3, 0).unwrap();
    assert_eq!((quick.passes, quick.frames), (true, 3));
}

/// The answer and the slice after a step, in a slice with room above the height.
fn after_step(graph: &Graph, frames: &[u16], next: usize) -> (Result<usize, Refusal>, Vec<u16>) {
    let mut stack = frames.to_vec();
    stack.extend([77, 88]);
    let answer = step(graph, &mut stack, frames.len(), next);
    (answer, stack)
}

#[test]
fn each_rule_writes_one_place() {
    let graph = gateway();
    assert_eq!(after_step(&graph, &[], 1), (Ok(1), vec![1, 88]));
    assert_eq!(after_step(&graph, &[1], 4), (Ok(2), vec![1, 4, 88]));
    assert_eq!(after_step(&graph, &[1, 4, 5], 6), (Ok(3), vec![1, 4, 6, 77, 88]));
    assert_eq!(after_step(&graph, &[1, 4, 6], 6), (Ok(2), vec![1, 6, 6, 77, 88]));
    assert_eq!(after_step(&graph, &[1, 6], 7), (Ok(1), vec![7, 6, 77, 88]));
}

#[test]
fn no_rule_leads_to_the_next_node() {
    let graph = gateway();
    for (frames, next) in
        [(&[][..], 2), (&[0], 3), (&[1], 7), (&[1, 2], 2), (&[1, 6], 6), (&[7], 7), (&[3], 0)]
    {
        let (answer, stack) = after_step(&graph, frames, next);
        assert_eq!(answer, refusal(8, 0));
        assert_eq!(stack, [frames, &[77, 88]].concat());
    }
}

#[test]
fn a_denied_check_is_9_and_keeps_the_stack() {
    assert_eq!(after_step(&gateway(), &[1, 2], 3), (refusal(9, 0), vec![1, 2, 77, 88]));
}

#[test]
fn without_an_edge_a_denied_check_is_8() {
    assert_eq!(after_step(&gateway(), &[1, 2], 4).0, refusal(8, 0));
}

#[test]
fn a_push_without_a_place_is_10_only_where_a_rule_leads_on() {
    let graph = gateway();
    assert_eq!(step(&graph, &mut [], 0, 0), refusal(10, 0));
    assert_eq!(step(&graph, &mut [], 0, 3), refusal(8, 0));
    assert_eq!(step(&graph, &mut [1], 1, 4), refusal(10, 0));
    assert_eq!(step(&graph, &mut [1], 1, 3), refusal(8, 0));
}

#[test]
fn moves_that_push_nothing_work_in_a_full_slice() {
    let graph = gateway();
    let mut stack = [1, 4, 5];
    assert_eq!(step(&graph, &mut stack, 3, 6), Ok(3));
    assert_eq!(step(&graph, &mut stack, 3, 6), Ok(2));
    assert_eq!(stack, [1, 6, 6]);
}

#[test]
fn a_return_above_a_check_asks_for_no_inspection() {
    let graph = empty_graph(1).check_node(0, "E", &[]).return_node("", &[]).transfer(0, 1);
    assert_eq!(after_step(&graph, &[0, 1], 1), (Ok(1), vec![1, 1, 77, 88]));
}

#[test]
fn the_edge_used_must_be_of_the_rules_kind() {
    let graph = empty_graph(1).call_node("E", &[0]).return_node("", &[0]).transfer(0, 1);
    assert_eq!(after_step(&graph, &[0], 1).0, refusal(8, 0));
    let graph = empty_graph(1).call_node("E", &[0]).return_node("", &[0]).call(0, 1);
    assert_eq!(after_step(&graph, &[0, 1], 1).0, refusal(8, 0));
}
