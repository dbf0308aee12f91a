//! Works of tasks.
use crate::executor::{Spawned, run, yield_now};
use crate::pools::{Managed, each_managed};
use crate::rows::Row;
use std::cell::RefCell;
use std::collections::VecDeque;
use std::rc::Rc;
use std::sync::{Arc, Mutex};
use std::time::Instant;

/// So many tasks make so many gets each, and hold each object over a yield or over nothing. Gives the waits too, in nanoseconds.
fn share<M: Managed>(pool: &M, tasks: usize, gets: usize, yields: bool) -> (f64, Vec<u128>) {
    let waits = Arc::new(Mutex::new(Vec::with_capacity(tasks * gets)));
    let task = |_| {
        let (pool, waits) = (pool.clone(), waits.clone());
        let future = async move {
            let mut own = Vec::with_capacity(gets);
            for _ in 0..gets {
                let asked = Instant::now();
                let mut object = pool.get().await;
                own.push(asked.elapsed().as_nanos());
                if yields {
                    yield_now().await;
                }
                *object += 1;
            }
            waits.lock().expect("no panic").extend(own);
        };
        Box::pin(future) as Spawned
    };
    let took = run((0..tasks).map(task).collect());
    let mut waits = std::mem::take(&mut *waits.lock().expect("no panic"));
    waits.sort_unstable();
    (took / (tasks * gets) as f64, waits)
}

fn some<M: Managed>(row: &mut Row, tasks: usize, yields: bool) {
    let pool = M::new(3);
    row.add(M::NAME, move || share(&pool, tasks, 24_000 / tasks, yields).0);
}

/// Adds a crowd to a row, and to another one how long 99 of 100 of its gets wait at most, which the first row finds.
fn crowd<M: Managed>(row: &mut Row, waits_row: &mut Row, yields: bool) {
    let most = Rc::new(RefCell::new(VecDeque::new()));
    let found = most.clone();
    row.add(M::NAME, move || {
        let (took, waits) = share(&M::new(10), 10_000, 20, yields);
        found.borrow_mut().push_back(waits[(waits.len() - 1) * 99 / 100] as f64);
        took
    });
    waits_row.add(M::NAME, move || most.borrow_mut().pop_front().expect("a round of the first row"));
}

/// Some tasks share three objects.
pub fn time(rounds: usize) {
    for (over, yields) in [("", false), (", held over a yield", true)] {
        for tasks in [1, 4, 8, 64] {
            let mut row = Row::default();
            each_managed!(some(&mut row, tasks, yields));
            row.time(&format!("managed, {tasks} tasks{over}"), rounds);
        }
    }
}

/// Ten thousand tasks share ten objects.
pub fn time_crowd(rounds: usize) {
    for (name, yields) in [("10,000 tasks", false), ("10,000 tasks, held over a yield", true)] {
        let (mut row, mut waits) = (Row::default(), Row::default());
        each_managed!(crowd(&mut row, &mut waits, yields));
        row.time(&format!("managed, {name}"), rounds);
        waits.time(&format!("managed, {name}: 99 of 100 wait at most"), rounds);
    }
}
