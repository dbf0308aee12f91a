//! Which threads are to be tried earlier: those whose operations could come before ones that they depend on.
use crate::clock::Clock;
use crate::operation::Operation;
use crate::path::Node;

/// Marks at each choice of a path who is to be tried there, by what an execution did.
pub(crate) fn find(path: &mut [Node], trace: &[(usize, Operation)], threads: usize) {
    let mut behind: Vec<Clock> = Vec::with_capacity(trace.len());
    let mut last = vec![Clock::default(); threads];
    let mut counts = vec![0; threads];
    let mut numbers: Vec<u32> = Vec::with_capacity(trace.len());
    for (at, &(thread, operation)) in trace.iter().enumerate() {
        if operation != Operation::Choice {
            // (the last ones that it depends on, which do not come before it anyway)
            let mut seen = last[thread].clone();
            for before in (0..at).rev() {
                let (other, earlier) = trace[before];
                if other != thread && operation.depends_on(earlier) && !seen.covers(other, numbers[before]) {
                    try_earlier(&mut path[before], thread, operation);
                    seen.join(&behind[before]);
                }
            }
        }
        counts[thread] += 1;
        let mut clock = last[thread].clone();
        clock.set(thread, counts[thread]);
        let met = (0..at).filter(|before| trace[*before].0 != thread && operation.depends_on(trace[*before].1));
        met.for_each(|before| clock.join(&behind[before]));
        last[thread] = clock.clone();
        behind.push(clock);
        numbers.push(counts[thread]);
    }
}

/// A thread is to be tried at a choice, or all that may lead to its operation.
fn try_earlier(node: &mut Node, thread: usize, operation: Operation) {
    if node.enabled.has(thread) {
        node.to_try.insert(thread);
    } else if node.pending[thread] != Some(operation) {
        node.to_try = node.to_try.and(node.enabled);
    }
    // (or it could not go on there)
}
