//! Which value belongs to which object, over long runs of random calls.
mod common;

use common::{Numbers, Task, block_on, counts};
use deadpool::managed::{Hook, HookError, Metrics, Object, Pool, QueueMode};
use deadpool::unmanaged;
use std::collections::{BTreeSet, VecDeque};
use std::task::Poll;

/// Numbers that look as if they were thrown, the same in each run.
struct Dice(u64);

impl Dice {
    fn below(&mut self, bound: usize) -> usize {
        self.0 ^= self.0 << 13;
        self.0 ^= self.0 >> 7;
        self.0 ^= self.0 << 17;
        (self.0 % bound as u64) as usize
    }
}

/// Takes one of a list, if it has any.
fn one<T>(list: &mut Vec<T>, dice: &mut Dice) -> Option<T> {
    (!list.is_empty()).then(|| list.swap_remove(dice.below(list.len())))
}

/// A pool whose manager makes the values 0, 1, 2 and so on: each object's value is its number. Every seventh value is refused when
/// it is new, and every fifth when it comes back.
fn numbered(queue_mode: QueueMode) -> Pool<Numbers> {
    let refuse = |every: usize| {
        Hook::sync_fn(
            move |value: &mut usize, _: &Metrics| {
                if *value % every == every - 1 { Err(HookError::message("refused")) } else { Ok(()) }
            },
        )
    };
    let builder = Pool::builder(Numbers::default()).max_size(4).queue_mode(queue_mode);
    builder.post_create(refuse(7)).pre_recycle(refuse(5)).build().expect("a pool")
}

#[test]
fn each_number_keeps_its_value() {
    for (seed, queue_mode) in [(1, QueueMode::Fifo), (2, QueueMode::Lifo)] {
        let (pool, mut dice) = (numbered(queue_mode), Dice(seed));
        let (mut out, mut waiting) = (Vec::<Object<Numbers>>::new(), Vec::new());
        for _ in 0..4000 {
            match dice.below(12) {
                0..=4 => waiting.push(Task::new(pool.get())),
                5..=7 => drop(one(&mut out, &mut dice)),
                8 => drop(one(&mut out, &mut dice).map(|object| {
                    let number = Object::id(&object).to_string();
                    assert_eq!(Object::take(object).to_string(), number);
                })),
                9 => drop(one(&mut waiting, &mut dice)),
                10 => pool.resize(dice.below(6)),
                _ => drop(pool.retain(|value, _| value % 3 != 0)),
            }
            waiting.retain_mut(|get: &mut Task<'_, Result<Object<Numbers>, _>>| match get.poll() {
                Poll::Pending => true,
                Poll::Ready(given) => {
                    out.extend(given.ok());
                    false
                }
            });
            assert!(out.iter().all(|object| object.to_string() == Object::id(object).to_string()));
            let numbers: BTreeSet<_> = out.iter().map(Object::id).collect();
            assert_eq!(numbers.len(), out.len());
        }
        assert!(pool.manager().detached() > 100);
    }
}

#[test]
fn who_is_next_is_handed_out_with_its_value() {
    for (seed, queue_mode) in [(4, QueueMode::Fifo), (5, QueueMode::Lifo)] {
        let builder = Pool::builder(Numbers::default()).max_size(4).queue_mode(queue_mode);
        let (pool, mut dice): (Pool<Numbers>, _) = (builder.build().expect("a pool"), Dice(seed));
        let (mut out, mut idle, mut next) = (Vec::<Object<Numbers>>::new(), VecDeque::new(), 0);
        for _ in 0..4000 {
            match dice.below(6) {
                0..=2 if out.len() < 4 => {
                    let object = block_on(pool.get()).expect("a place is free");
                    let first = if queue_mode == QueueMode::Fifo { idle.pop_front() } else { idle.pop_back() };
                    let expected = first.unwrap_or(next);
                    next += usize::from(first.is_none());
                    assert_eq!((*object, Object::id(&object).to_string()), (expected, expected.to_string()));
                    out.push(object);
                }
                5 => drop(one(&mut out, &mut dice).map(Object::take)),
                _ => idle.extend(one(&mut out, &mut dice).map(|object| *object)),
            }
            assert_eq!(counts(pool.status()), [out.len() + idle.len(), idle.len(), 0]);
        }
        assert!(next > 300);
    }
}

#[test]
fn each_value_that_is_added_is_had_until_it_is_taken() {
    let (pool, mut dice) = (unmanaged::Pool::new(5), Dice(3));
    let (mut out, mut there, mut next) = (Vec::<unmanaged::Object<u64>>::new(), BTreeSet::new(), 0);
    for _ in 0..4000 {
        match dice.below(8) {
            0 | 1 => {
                next += 1;
                match pool.try_add(next) {
                    Ok(()) => assert!(there.insert(next)),
                    Err((value, _)) => assert_eq!(value, next),
                }
            }
            2..=4 => out.extend(pool.try_get()),
            5 | 6 => drop(one(&mut out, &mut dice)),
            _ => {
                let taken = one(&mut out, &mut dice).map(unmanaged::Object::take);
                assert!(taken.is_none_or(|value| there.remove(&value)));
            }
        }
        let held: BTreeSet<_> = out.iter().map(|object| **object).collect();
        assert!(held.len() == out.len() && held.is_subset(&there));
        assert_eq!(counts(pool.status()), [there.len(), there.len() - out.len(), 0]);
    }
    assert!(next > 800);
}
