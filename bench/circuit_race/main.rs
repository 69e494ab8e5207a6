//! The same chain of gates in plain Rust: picoseconds for a gate, and how often the last was true.

use std::hint::black_box;
use std::time::Instant;

const GATES: u32 = 1_000_000;
const ROUNDS: u32 = 20;

#[derive(Clone, Copy)]
struct Lit {
    var: u32,
    neg: bool,
}

impl Lit {
    fn negate(self) -> Lit {
        Lit { var: self.var, neg: !self.neg }
    }

    fn value(self, values: &[bool]) -> bool {
        values[self.var as usize] != self.neg
    }
}

#[derive(Clone, Copy)]
enum Gate {
    And(Lit, Lit),
    Xor(Lit, Lit),
    Mux(Lit, Lit, Lit),
}

impl Gate {
    fn value(&self, values: &[bool]) -> bool {
        match *self {
            Gate::And(left, right) => left.value(values) && right.value(values),
            Gate::Xor(left, right) => left.value(values) != right.value(values),
            Gate::Mux(condition, then, other) => {
                if condition.value(values) { then.value(values) } else { other.value(values) }
            }
        }
    }
}

fn value(nodes: &[Option<Gate>], inputs: &[bool], literal: Lit) -> bool {
    let nodes = &nodes[..=literal.var as usize];
    let mut values = Vec::with_capacity(nodes.len());
    let mut inputs = inputs.iter();
    for node in nodes {
        match node {
            None => values.push(*inputs.next().unwrap()),
            Some(gate) => values.push(gate.value(&values)),
        }
    }
    literal.value(&values)
}

fn main() {
    let input = Lit { var: 0, neg: false };
    let mut nodes = vec![None];
    let mut before = input;
    let mut last = input;
    for number in 0..GATES {
        let gate = match number % 3 {
            0 => Gate::And(last, before.negate()),
            1 => Gate::Xor(last, before),
            _ => Gate::Mux(input, last.negate(), before),
        };
        before = last;
        last = Lit { var: nodes.len() as u32, neg: false };
        nodes.push(Some(gate));
    }
    let start = Instant::now();
    let mut trues = 0;
    for round in 0..ROUNDS {
        if value(black_box(&nodes), &[round % 2 == 0], last) {
            trues += 1;
        }
    }
    let picoseconds = start.elapsed().as_nanos() / (GATES as u128 * ROUNDS as u128 / 1000);
    println!("{picoseconds} {trues}");
}
