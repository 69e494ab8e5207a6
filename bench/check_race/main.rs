//! The same log in plain Rust: nanoseconds for an entry, and how often it was accepted.

use std::hint::black_box;
use std::time::Instant;

const GATES: u32 = 20_000;
const ENTRIES: u32 = 100_000;
const WINDOW: u32 = 16;
const ROUNDS: u32 = 10;

#[derive(Clone, Copy, PartialEq)]
struct Lit {
    var: u32,
    neg: bool,
}

impl Lit {
    fn positive(var: u32) -> Lit {
        Lit { var, neg: false }
    }

    fn negate(self) -> Lit {
        Lit { var: self.var, neg: !self.neg }
    }
}

struct Learnt {
    clause: Vec<Lit>,
    hints: Vec<u32>,
}

enum State {
    Falsified,
    Unit(Lit),
    Settled,
}

fn state_of(clause: &[Lit], values: &[Option<bool>]) -> State {
    let mut unvalued = None;
    for literal in clause {
        match values[literal.var as usize] {
            Some(value) if value != literal.neg => return State::Settled,
            Some(_) => {}
            None => match unvalued {
                None => unvalued = Some(*literal),
                Some(other) if other == *literal => {}
                Some(_) => return State::Settled,
            },
        }
    }
    unvalued.map_or(State::Falsified, State::Unit)
}

fn refutes(known: &[Vec<Lit>], values: &mut [Option<bool>], trail: &mut Vec<u32>, hints: &[u32]) -> bool {
    for (place, hint) in hints.iter().enumerate() {
        let Some(clause) = known.get(*hint as usize) else {
            return false;
        };
        match state_of(clause, values) {
            State::Falsified => return place + 1 == hints.len(),
            State::Unit(literal) => {
                values[literal.var as usize] = Some(!literal.neg);
                trail.push(literal.var);
            }
            State::Settled => return false,
        }
    }
    false
}

fn is_learnt(known: &[Vec<Lit>], values: &mut [Option<bool>], trail: &mut Vec<u32>, entry: &Learnt) -> bool {
    if entry.clause.iter().any(|literal| literal.var as usize >= values.len()) {
        return false;
    }
    for literal in &entry.clause {
        values[literal.var as usize] = Some(literal.neg);
        trail.push(literal.var);
    }
    let learnt = matches!(state_of(&entry.clause, values), State::Falsified) && refutes(known, values, trail, &entry.hints);
    for variable in trail.drain(..) {
        values[variable as usize] = None;
    }
    learnt
}

fn check(clauses: &[Vec<Lit>], first: usize, log: &[Learnt], values: &mut [Option<bool>], trail: &mut Vec<u32>) -> bool {
    for (place, entry) in log.iter().enumerate() {
        if !is_learnt(&clauses[..first + place], values, trail, entry) {
            return false;
        }
    }
    log.last().is_some_and(|entry| entry.clause.is_empty())
}

/// Gate `number` is the one before it and input 1.
fn gate(number: u32) -> u32 {
    2 + number
}

fn before(number: u32) -> u32 {
    if number == 0 { 0 } else { gate(number - 1) }
}

fn clauses(number: u32) -> [Vec<Lit>; 3] {
    let on = Lit::positive(gate(number));
    let left = Lit::positive(before(number));
    let right = if number == GATES { Lit::positive(0).negate() } else { Lit::positive(1) };
    [vec![on.negate(), left], vec![on.negate(), right], vec![on, left.negate(), right.negate()]]
}

fn window(number: u32) -> Learnt {
    let low = number.wrapping_mul(7919) % (GATES - WINDOW);
    let below = Lit::positive(before(low));
    let above = Lit::positive(gate(low + WINDOW - 1));
    if number % 2 == 0 {
        let hints = (0..WINDOW).map(|step| 3 * (low + WINDOW - 1 - step)).collect();
        Learnt { clause: vec![above.negate(), below], hints }
    } else {
        let hints = (0..WINDOW).map(|step| 3 * (low + step) + 2).collect();
        Learnt { clause: vec![above, below.negate(), Lit::positive(1).negate()], hints }
    }
}

fn last() -> Learnt {
    let mut hints = vec![3 * (GATES + 1), 3 * GATES, 3 * GATES + 1];
    hints.extend((0..GATES).map(|step| 3 * (GATES - 1 - step)));
    Learnt { clause: vec![], hints }
}

fn main() {
    let mut all: Vec<Vec<Lit>> = (0..=GATES).flat_map(clauses).collect();
    all.push(vec![Lit::positive(gate(GATES))]);
    let first = all.len();
    let mut log: Vec<Learnt> = (0..ENTRIES).map(window).collect();
    log.push(last());
    all.extend(log.iter().map(|entry| entry.clause.clone()));
    let mut values = vec![None; gate(GATES) as usize + 1];
    let mut trail = Vec::with_capacity(values.len());
    let start = Instant::now();
    let mut accepted = 0;
    for _ in 0..ROUNDS {
        if check(black_box(&all), first, black_box(&log), &mut values, &mut trail) {
            accepted += 1;
        }
    }
    let nanoseconds = start.elapsed().as_nanos() / u128::from(ENTRIES * ROUNDS);
    println!("{nanoseconds} {accepted}");
}
