// The same merges as in uc_linear, with checked sums and products, in plain Rust.
use std::hint::black_box;
use std::time::Instant;

struct Form {
    constant: i128,
    pairs: Vec<(u32, i128)>,
}

fn form(step: u32) -> Form {
    let pairs = (0..6_000).filter(|v| v % step == 0).map(|v| (v, i128::from(v) + 1)).collect();
    Form { constant: 7, pairs }
}

fn merge(a: &[(u32, i128)], b: &[(u32, i128)], join: impl Fn(i128, i128) -> Option<i128>) -> Option<Vec<(u32, i128)>> {
    let (mut i, mut j) = (0, 0);
    let mut merged = Vec::new();
    while i < a.len() || j < b.len() {
        let left = a.get(i).map_or(u32::MAX, |p| p.0);
        let right = b.get(j).map_or(u32::MAX, |p| p.0);
        let variable = left.min(right);
        let mut k = 0;
        if i < a.len() && left == variable {
            k = a[i].1;
            i += 1;
        }
        let mut m = 0;
        if j < b.len() && right == variable {
            m = b[j].1;
            j += 1;
        }
        let both = join(k, m)?;
        if both != 0 {
            merged.push((variable, both));
        }
    }
    Some(merged)
}

fn add(a: &Form, b: &Form) -> Option<Form> {
    let constant = a.constant.checked_add(b.constant)?;
    let pairs = merge(&a.pairs, &b.pairs, |k, m| k.checked_add(m))?;
    Some(Form { constant, pairs })
}

fn scale(a: &Form, k: i128) -> Option<Form> {
    let constant = a.constant.checked_mul(k)?;
    let mut pairs = Vec::new();
    for &(variable, coefficient) in &a.pairs {
        pairs.push((variable, coefficient.checked_mul(k)?));
    }
    Some(Form { constant, pairs })
}

fn combine(p: i128, r: &Form, q: i128, s: &Form) -> Option<Form> {
    let join = |k: i128, m: i128| p.checked_mul(k)?.checked_add(q.checked_mul(m)?);
    let constant = join(r.constant, s.constant)?;
    let pairs = merge(&r.pairs, &s.pairs, join)?;
    Some(Form { constant, pairs })
}

fn time(name: &str, call: impl Fn() -> Option<Form>) {
    let mut pairs = 0;
    let mut best = u128::MAX;
    for _ in 0..200 {
        let start = Instant::now();
        for _ in 0..10 {
            pairs += black_box(call()).map_or(0, |f| f.pairs.len() + (f.constant == 0) as usize);
        }
        best = best.min(start.elapsed().as_nanos());
    }
    println!("{name} {best} {pairs}");
}

fn main() {
    let (a, b) = (form(2), form(3));
    time("add", || add(black_box(&a), black_box(&b)));
    time("scale", || scale(black_box(&a), black_box(-3)));
    time("combine", || combine(black_box(5), black_box(&a), black_box(-4), black_box(&b)));
}
