// The same table of shared terms, the chain of sums and its evaluation, in plain Rust. With an argument a chain of so
// many terms is only built.
use std::collections::hash_map::DefaultHasher;
use std::env;
use std::hash::{Hash, Hasher};
use std::hint::black_box;
use std::time::Instant;

const WIDTH: u8 = 64;
const NODES: u32 = 100_000;
const EMPTY: u32 = u32::MAX;

#[allow(dead_code)]
#[derive(PartialEq, Eq, Hash, Clone)]
enum Ty {
    Bool,
    Int,
    Bv(u8),
    Enum(u32, u32),
    Un(u32),
    Rec(Vec<(u32, Ty)>),
    Arr(Box<Ty>, Box<Ty>),
}

#[allow(dead_code)]
#[derive(PartialEq, Eq, Hash, Clone)]
enum Value {
    Bool(bool),
    Int(i128),
    Bv(u8, u64),
    Enum(u32, u32),
    Un(u32, u64),
    Rec(Vec<Value>),
    Arr(Box<Value>, Vec<(Value, Value)>),
}

#[allow(dead_code)]
#[derive(PartialEq, Eq, Hash)]
enum Op {
    Symbol(u32, Ty),
    Const(Ty, Value),
    Scale(i128),
    BvAdd,
    BvNot,
    Extract(u8, u8),
}

struct Node {
    op: Op,
    parts: Vec<u32>,
    ty: Ty,
}

fn hash(op: &Op, parts: &[u32]) -> u64 {
    let mut state = DefaultHasher::new();
    op.hash(&mut state);
    parts.hash(&mut state);
    state.finish()
}

// Nodes by number, with their hashes, and slots of numbers that are found by the hash.
struct Terms {
    nodes: Vec<(u64, Node)>,
    slots: Vec<u32>,
}

impl Terms {
    fn new() -> Terms {
        Terms { nodes: Vec::new(), slots: vec![EMPTY; 8] }
    }

    fn slot(&self, hash: u64, op: &Op, parts: &[u32]) -> usize {
        let mask = self.slots.len() - 1;
        let mut slot = hash as usize & mask;
        loop {
            let number = self.slots[slot];
            if number == EMPTY {
                return slot;
            }
            let (other, node) = &self.nodes[number as usize];
            if *other == hash && node.op == *op && node.parts == parts {
                return slot;
            }
            slot = (slot + 1) & mask;
        }
    }

    fn grow(&mut self) {
        let count = self.slots.len() * 2;
        self.slots = vec![EMPTY; count];
        for (number, (hash, _)) in self.nodes.iter().enumerate() {
            let mut slot = *hash as usize & (count - 1);
            while self.slots[slot] != EMPTY {
                slot = (slot + 1) & (count - 1);
            }
            self.slots[slot] = number as u32;
        }
    }

    fn ty(&self, op: &Op, parts: &[u32]) -> Ty {
        match op {
            Op::Symbol(_, ty) | Op::Const(ty, _) => ty.clone(),
            Op::Scale(_) => Ty::Int,
            Op::BvAdd | Op::BvNot => self.nodes[parts[0] as usize].1.ty.clone(),
            Op::Extract(high, low) => Ty::Bv(high - low + 1),
        }
    }

    fn mk(&mut self, op: Op, parts: &[u32]) -> u32 {
        let ty = self.ty(&op, parts);
        let hash = hash(&op, parts);
        let slot = self.slot(hash, &op, parts);
        if self.slots[slot] != EMPTY {
            return self.slots[slot];
        }
        let number = self.nodes.len() as u32;
        self.slots[slot] = number;
        self.nodes.push((hash, Node { op, parts: parts.to_vec(), ty }));
        if self.nodes.len() * 4 > self.slots.len() * 3 {
            self.grow();
        }
        number
    }

    fn eval(&self, term: u32, symbols: &[Value]) -> Value {
        let count = term as usize + 1;
        let mut marks = vec![false; count];
        marks[term as usize] = true;
        for place in (0..count).rev() {
            if marks[place] {
                for part in &self.nodes[place].1.parts {
                    marks[*part as usize] = true;
                }
            }
        }
        let mut values: Vec<Value> = Vec::new();
        for place in 0..count {
            let value = if marks[place] { self.value(place, &values, symbols) } else { Value::Bool(false) };
            values.push(value);
        }
        values.swap_remove(term as usize)
    }

    fn value(&self, place: usize, values: &[Value], symbols: &[Value]) -> Value {
        let node = &self.nodes[place].1;
        let bits = |k: usize| match &values[node.parts[k] as usize] {
            Value::Bv(width, bits) => (*width, *bits),
            _ => (0, 0),
        };
        let mask = |width: u8| if width >= 64 { u64::MAX } else { (1 << width) - 1 };
        match &node.op {
            Op::Symbol(number, _) => symbols[*number as usize].clone(),
            Op::Const(_, value) => value.clone(),
            Op::Scale(factor) => match &values[node.parts[0] as usize] {
                Value::Int(number) => Value::Int(factor.checked_mul(*number).unwrap()),
                other => other.clone(),
            },
            Op::BvAdd => {
                let ((width, a), (_, b)) = (bits(0), bits(1));
                Value::Bv(width, a.wrapping_add(b) & mask(width))
            }
            Op::BvNot => Value::Bv(bits(0).0, !bits(0).1 & mask(bits(0).0)),
            Op::Extract(high, low) => {
                let width = high - low + 1;
                Value::Bv(width, bits(0).1 >> low & mask(width))
            }
        }
    }
}

fn chain(terms: &mut Terms, nodes: u32) -> u32 {
    let mut last = terms.mk(Op::Symbol(0, Ty::Bv(WIDTH)), &[]);
    for _ in 0..nodes {
        last = terms.mk(Op::BvAdd, &[last, last]);
    }
    last
}

fn main() {
    if let Some(nodes) = env::args().nth(1) {
        let mut terms = Terms::new();
        let last = chain(&mut terms, nodes.parse().unwrap());
        println!("built {last} {}", terms.nodes.len());
        return;
    }
    let symbols = [Value::Bv(WIDTH, 3)];
    let mut terms = Terms::new();
    let start = Instant::now();
    chain(black_box(&mut terms), NODES);
    let build = start.elapsed().as_nanos();
    let start = Instant::now();
    let last = chain(black_box(&mut terms), NODES);
    let again = start.elapsed().as_nanos();
    let start = Instant::now();
    let value = terms.eval(black_box(last), &symbols);
    let evaluate = start.elapsed().as_nanos();
    let count = terms.nodes.len();
    println!("mk {build} {count}");
    println!("again {again} {count}");
    println!("eval {evaluate} {}", value == Value::Bv(WIDTH, 0));
}
