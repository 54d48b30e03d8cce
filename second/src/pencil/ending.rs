//! How a rule ends on paper, the last step and what came out, and how a member does.

use super::blanks::{filled, written};
use super::words::steps as w;
use super::working::{Right, Square};
use crate::rules::Demand;

/// The number that a rule's working comes to, tested, beside what the member has.
pub fn ending(demand: &Demand, right: &Right, least: Option<i128>) -> String {
    last_step(demand, right, least) + &result(demand, least)
}

/// The scantling of a rule among T, W and A.
fn scantling(demand: &Demand) -> usize {
    match demand.rule {
        5 => 1,
        6 => 2,
        _ => 0,
    }
}

fn last_step(demand: &Demand, right: &Right, least: Option<i128>) -> String {
    let Some(first) = right.first() else {
        return String::new();
    };
    if first > demand.gauge {
        let past = w::PAST[scantling(demand)];
        return filled(past, 0, &[first, demand.gauge]);
    }
    match (least, right) {
        (Some(1), _) => filled(w::BEGINS[scantling(demand)], 0, &[]),
        (Some(least), Right::Square(square)) if first == least => meets(square, least),
        (Some(_), Right::Square(square)) => short(square, first),
        (None, Right::Square(square)) => {
            let [tested, _] = w::SHORT[place(square)];
            written(&[
                (tested, &sides(square, first)),
                (w::NO_MORE, &[demand.gauge]),
            ])
        }
        _ => String::new(),
    }
}

fn place(square: &Square) -> usize {
    usize::from(square.is_of_T())
}

/// A thickness, X where it is not T, its square, and what that is held against.
fn sides(square: &Square, T: i128) -> Vec<i128> {
    let X = square.X(T);
    match square.is_of_T() {
        true => vec![T, T * T, square.n],
        false => vec![T, X, X * X, square.n],
    }
}

fn meets(square: &Square, least: i128) -> String {
    let [tested, less] = w::MEETS[place(square)];
    let (at, under) = (sides(square, least), sides(square, least - 1));
    written(&[(tested, &at), (less, &under)])
}

fn short(square: &Square, first: i128) -> String {
    let [tested, more] = w::SHORT[place(square)];
    let (at, over) = (sides(square, first), sides(square, first + 1));
    written(&[(tested, &at), (more, &over)])
}

fn result(demand: &Demand, least: Option<i128>) -> String {
    let fill = |line, numbers: &[i128]| filled(line, demand.rule, numbers);
    let has = demand.entered;
    match least {
        None => fill(w::RESULT_NONE, &[has]),
        Some(least) if has >= least => fill(w::RESULT_MET, &[least, has, has - least]),
        Some(least) => fill(w::RESULT_SHORT, &[least, has, least - has]),
    }
}

/// The first rule that fails, by the least number of each.
pub fn verdict(demands: &[Demand; 3], least: &[Option<i128>; 3]) -> String {
    let mut rules = demands.iter().zip(least);
    let fails = rules.find(|(demand, least)| least.is_none_or(|least| demand.entered < least));
    match fails {
        None => filled(w::VERDICT_PASSES, 0, &[]),
        Some((Demand { rule, .. }, None)) => filled(w::VERDICT_NOTHING, *rule, &[*rule]),
        Some((Demand { rule, .. }, Some(least))) => {
            filled(w::VERDICT_REQUIRED, *rule, &[*rule, *least])
        }
    }
}
