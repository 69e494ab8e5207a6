// The steps of a module of one variable in a plain loop, with the report that the verifier writes for it.
use std::io::Write;

fn main() {
    let steps: u32 = 1000;
    // Both values of the variable, and whether a run reaches each after so many steps.
    let mut reached = [false, true];
    let mut passed = Vec::new();
    for _ in 0..=steps {
        passed.push([false, true].iter().all(|x| !reached[usize::from(*x)] || *x || !*x));
        let mut next = [false, false];
        for x in [false, true] {
            if reached[usize::from(x)] {
                next[usize::from(!x)] = true;
            }
        }
        reached = next;
    }
    let count = passed.iter().filter(|p| **p).count();
    let mut report = Vec::new();
    writeln!(report, "{} assertions passed.", count).unwrap();
    writeln!(report, "{} assertions failed.", passed.len() - count).unwrap();
    writeln!(report, "0 assertions indeterminate.").unwrap();
    for (step, passed) in passed.iter().enumerate() {
        let verdict = if *passed { "PASSED" } else { "FAILED" };
        writeln!(report, "  {verdict} -> unroll [step {step}] invariant any").unwrap();
    }
    std::io::stdout().write_all(&report).unwrap();
}
