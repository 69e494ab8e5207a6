//! The same circuits in plain Rust: the nanoseconds for the product, and the gates of both.

use std::collections::HashMap;
use std::hint::black_box;
use std::time::Instant;

const WIDTH: u32 = 64;
const ROUNDS: u32 = 20;

#[derive(Clone, Copy, PartialEq, Eq, Hash)]
struct Lit {
    var: u32,
    neg: bool,
}

impl Lit {
    fn negate(self) -> Lit {
        Lit { var: self.var, neg: !self.neg }
    }
}

#[derive(Clone, Copy, PartialEq, Eq, Hash)]
enum Gate {
    And(Lit, Lit),
    Xor(Lit, Lit),
    Mux(Lit, Lit, Lit),
}

#[derive(Clone, Copy)]
enum Signal {
    Constant(bool),
    Of(Lit),
}

use Signal::{Constant, Of};

impl Signal {
    fn turn(self) -> Signal {
        match self {
            Constant(truth) => Constant(!truth),
            Of(literal) => Of(literal.negate()),
        }
    }

    fn turn_if(self, turn: bool) -> Signal {
        if turn { self.turn() } else { self }
    }
}

/// Each gate with its number, and the gates in order.
#[derive(Default)]
struct Gates {
    numbers: HashMap<Gate, u32>,
    gates: Vec<Gate>,
}

impl Gates {
    fn add(&mut self, gate: Gate) -> Signal {
        let next = 2 * WIDTH + self.gates.len() as u32;
        let number = *self.numbers.entry(gate).or_insert(next);
        if number == next {
            self.gates.push(gate);
        }
        Of(Lit { var: number, neg: false })
    }

    fn and(&mut self, a: Signal, b: Signal) -> Signal {
        match (a, b) {
            (Constant(true), other) | (other, Constant(true)) => other,
            (Constant(false), _) | (_, Constant(false)) => Constant(false),
            (Of(a), Of(b)) if a.var == b.var => {
                if a.neg == b.neg { Of(a) } else { Constant(false) }
            }
            (Of(a), Of(b)) if a.var < b.var => self.add(Gate::And(a, b)),
            (Of(a), Of(b)) => self.add(Gate::And(b, a)),
        }
    }

    fn xor(&mut self, a: Signal, b: Signal) -> Signal {
        match (a, b) {
            (Constant(truth), other) | (other, Constant(truth)) => other.turn_if(truth),
            (Of(a), Of(b)) if a.var == b.var => Constant(a.neg != b.neg),
            (Of(a), Of(b)) => {
                let (low, high) = if a.var < b.var { (a.var, b.var) } else { (b.var, a.var) };
                self.add(Gate::Xor(Lit { var: low, neg: false }, Lit { var: high, neg: false })).turn_if(a.neg != b.neg)
            }
        }
    }

    fn choose(&mut self, condition: Signal, yes: Signal, no: Signal) -> Signal {
        match (condition, yes, no) {
            (Constant(truth), _, _) => if truth { yes } else { no },
            (_, Constant(true), _) => self.and(condition.turn(), no.turn()).turn(),
            (_, Constant(false), _) => self.and(condition.turn(), no),
            (_, _, Constant(true)) => self.and(condition, yes.turn()).turn(),
            (_, _, Constant(false)) => self.and(condition, yes),
            (Of(_), Of(a), Of(b)) if a.var == b.var => {
                if a.neg == b.neg { yes } else { self.xor(condition, no) }
            }
            (Of(c), Of(a), Of(b)) if c.neg => self.add(Gate::Mux(c.negate(), b, a)),
            (Of(c), Of(a), Of(b)) => self.add(Gate::Mux(c, a, b)),
        }
    }

    fn add_each(&mut self, a: &[Signal], b: &[Signal]) -> Vec<Signal> {
        let mut carry = Constant(false);
        a.iter().zip(b).map(|(a, b)| {
            let differ = self.xor(*a, *b);
            let sum = self.xor(differ, carry);
            carry = self.choose(differ, carry, *a);
            sum
        }).collect()
    }

    fn multiply(&mut self, a: &[Signal], b: &[Signal]) -> Vec<Signal> {
        let mut sum = vec![Constant(false); a.len()];
        for (places, by) in b.iter().enumerate() {
            let row: Vec<Signal> = a[..a.len() - places].iter().map(|bit| self.and(*bit, *by)).collect();
            let high = self.add_each(&sum[places..], &row);
            sum.truncate(places);
            sum.extend(high);
        }
        sum
    }
}

fn number(first: u32) -> Vec<Signal> {
    (first..first + WIDTH).map(|var| Of(Lit { var, neg: false })).collect()
}

fn main() {
    let (a, b) = (number(0), number(WIDTH));
    let mut sum = Gates::default();
    black_box(sum.add_each(&a, &b));
    let mut product = Gates::default();
    let start = Instant::now();
    for _ in 0..ROUNDS {
        product = Gates::default();
        black_box(product.multiply(black_box(&a), black_box(&b)));
    }
    let nanoseconds = start.elapsed().as_nanos() / u128::from(ROUNDS);
    println!("{nanoseconds} {} {}", sum.gates.len(), product.gates.len());
}
