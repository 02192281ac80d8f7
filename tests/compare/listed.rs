//! The listed cases as calls; each pick, touch and check is asked as all three, and how firm the
//! pick is. (That the second program gives the listed values is checked first.)

use crate::call::{Answer, Call, Lent, Walk};
use crate::chance::Chance;
use crate::flat;
use crate::stacks::on_stack;
use second::listed::{
    few_stack, sum_above_reach_stack, CHECKS, DISPLAYS, FIRMS, FOOTINGS, LEANS, LINES, READS,
    STACKS, STACK_WALKS, TOUCHES, WALKS, WRITES,
};
use second::session::numbers;

pub fn calls(chance: &mut Chance, _: u64) -> Vec<Call> {
    let picks: Vec<Call> = lines().into_iter().chain(stacks()).collect();
    let mut calls = walks();
    for walk in [Walk::Pick, Walk::Touch, Walk::InARow] {
        calls.extend(picks.iter().cloned().map(|call| call.asking(walk)));
    }
    calls.extend(picks.into_iter().flat_map(footings));
    calls.extend(leans());
    calls.extend(firms());
    calls.extend(reads(chance));
    calls.extend(writes(chance));
    calls.extend(DISPLAYS.iter().map(|(n, _)| Call::Display(n.map(|part| part as i32))));
    calls
}

/// Those that have the form of a line; the others are in the sessions.
fn lines() -> Vec<Call> {
    let inputs = LINES.iter().chain(TOUCHES).chain(CHECKS).map(|(input, _)| input);
    let inputs = inputs.chain(FOOTINGS.iter().map(|(input, _, _)| input));
    inputs.filter_map(|input| line(Walk::Pick, input)).collect()
}

/// The known lean and the firm footing of a pick's answer.
fn footings(pick: Call) -> Vec<Call> {
    match (pick.second(), pick.reach()) {
        (Answer::Pick(answer), Some(reach)) => {
            vec![Call::Lean(answer, reach), pick.asking(Walk::Firm(answer))]
        }
        _ => Vec::new(),
    }
}

fn leans() -> Vec<Call> {
    let lean = |&(answer, reach, _): &(_, i64, _)| Call::Lean(flat::pick(answer), reach as i32);
    LEANS.iter().map(lean).collect()
}

fn firms() -> Vec<Call> {
    let firm = |&(input, answer, _): &(_, _, _)| line(Walk::Firm(flat::pick(answer)), input);
    FIRMS.iter().filter_map(firm).collect()
}

fn line(walk: Walk, input: &str) -> Option<Call> {
    let nine = numbers(input.as_bytes())?;
    Some(Call::Wedge(walk, nine.map(|number| number as i32)))
}

fn walks() -> Vec<Call> {
    let on_wedge = WALKS.iter().filter_map(|(input, handed, _)| line(Walk::From(*handed), input));
    let on_stack = STACK_WALKS.iter().map(|&(places, reach, handed, _)| {
        let (_, bytes) = few_stack(8, places);
        Call::Stack(Walk::From(handed), on_stack([8; 3], bytes, [3; 3], 0, reach))
    });
    on_wedge.chain(on_stack).collect()
}

fn stacks() -> Vec<Call> {
    let mut calls = Vec::new();
    for case in STACKS {
        let (_, bytes) = case.stack();
        let asked = on_stack([case.side; 3], bytes, case.start, 0, case.reach);
        calls.push(Call::Stack(Walk::Pick, asked));
    }
    for reach in [5, 6] {
        let (_, bytes) = sum_above_reach_stack();
        calls.push(Call::Stack(Walk::Pick, on_stack([64; 3], bytes, [31; 3], 0, reach)));
    }
    calls
}

fn reads(chance: &mut Chance) -> Vec<Call> {
    let read = |case: &second::listed::ReadCase| {
        let lent = Lent::new(chance, case.rows.len());
        Call::Read { text: case.input.to_vec(), len: case.input.len(), lent }
    };
    READS.iter().map(read).collect()
}

fn writes(chance: &mut Chance) -> Vec<Call> {
    let write = |case: &second::listed::WriteCase| {
        let lent = Lent::new(chance, case.out.len());
        let sizes = case.sizes.map(|size| size as i32);
        Call::Write { sizes, bytes: case.bytes.to_vec(), lent }
    };
    WRITES.iter().map(write).collect()
}
