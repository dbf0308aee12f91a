//! What a pool counts, and how it is printed.
mod common;

use common::{Door, Numbers, Task, block_on};
use deadpool::Runtime;
use deadpool::managed::{
    Hook, HookError, Limits, Manager, Metrics, Object, Pool, PoolBuilder, RecycleResult, Report, Tally, Timeouts,
};
use std::task::Poll;
use std::time::Duration;

fn pool_of(max_size: usize) -> PoolBuilder<Numbers> {
    Pool::builder(Numbers::default()).max_size(max_size)
}

fn get(pool: &Pool<Numbers>) -> Object<Numbers> {
    block_on(pool.get()).expect("an object")
}

/// Fails unless what was created is there, or was given up for one cause.
fn balanced<M: Manager>(pool: &Pool<M>) -> Tally {
    let Report { tally, status, .. } = pool.tally();
    let Tally { refused, cancelled, surplus, not_retained, taken, dropped, .. } = tally;
    let gone = refused + cancelled + surplus + not_retained + taken + dropped;
    assert_eq!(tally.created, status.size as u64 + gone, "{tally:?}, {status:?}");
    tally
}

const NONE: Tally = Tally {
    gets: 0,
    served: 0,
    waited: 0,
    late: 0,
    crowded: 0,
    closed: 0,
    created: 0,
    failed: 0,
    refused: 0,
    cancelled: 0,
    surplus: 0,
    not_retained: 0,
    taken: 0,
    dropped: 0,
};

#[test]
fn gets_are_counted_by_how_they_ended() {
    let pool = pool_of(1).max_waiting(Some(1)).build().expect("a pool");
    assert_eq!(balanced(&pool), NONE);
    let held = get(&pool);
    let mut waits = Task::new(pool.get());
    assert!(waits.poll().is_pending());
    assert_eq!(balanced(&pool), Tally { gets: 2, served: 1, waited: 1, created: 1, ..NONE });
    assert!(block_on(pool.get()).is_err());
    assert!(block_on(pool.timeout_get(&Timeouts::wait_millis(0))).is_err());
    drop(held);
    assert!(matches!(waits.poll(), Poll::Ready(Ok(_))));
    let mut waits = Task::new(pool.get());
    let held = get(&pool);
    assert!(waits.poll().is_pending());
    pool.close();
    assert!(matches!(waits.poll(), Poll::Ready(Err(_))));
    assert!(block_on(pool.get()).is_err());
    drop(held);
    let counted = balanced(&pool);
    let wanted =
        Tally { gets: 7, served: 3, waited: 2, late: 1, crowded: 1, closed: 2, created: 1, surplus: 1, ..NONE };
    assert_eq!(counted, wanted);
}

#[test]
fn a_wait_that_is_over_is_late() {
    let pool = pool_of(1).runtime(Runtime::Thread).wait_timeout(Some(Duration::from_millis(1)));
    let pool = pool.build().expect("a pool");
    let held = get(&pool);
    assert!(block_on(pool.get()).is_err());
    drop(held);
    assert_eq!(balanced(&pool), Tally { gets: 2, served: 1, waited: 1, late: 1, created: 1, ..NONE });
    // One that is dropped while it waits is neither late nor served.
    let held = get(&pool);
    let mut waits = Task::new(pool.get());
    assert!(waits.poll().is_pending());
    drop(waits);
    drop(held);
    assert_eq!(balanced(&pool), Tally { gets: 4, served: 2, waited: 2, late: 1, created: 1, ..NONE });
}

#[test]
fn objects_are_counted_by_why_they_went() {
    let pool = pool_of(8).pre_recycle(Limits::none().uses(2)).build().expect("a pool");
    let some: Vec<_> = (0..6).map(|_| get(&pool)).collect();
    drop(some);
    assert_eq!(pool.retain(|number, _| *number != 0).removed, [0]);
    let _ = Object::take(get(&pool));
    // (two are above the limit, one of them out)
    let held = get(&pool);
    pool.resize(2);
    assert_eq!(
        balanced(&pool),
        Tally { gets: 8, served: 8, created: 6, not_retained: 1, taken: 1, surplus: 2, ..NONE }
    );
    let other = get(&pool);
    pool.resize(1);
    drop(held);
    assert_eq!(balanced(&pool).surplus, 3);
    drop(other);
    // The one that is left was handed out twice.
    drop(get(&pool));
    let counted = balanced(&pool);
    assert_eq!((counted.refused, counted.created, pool.tally().status.size), (1, 7, 1));
    pool.close();
    assert_eq!(balanced(&pool).surplus, 4);
}

/// Makes numbers, or fails, once a door is open.
struct Doors(Door, bool);

impl Manager for Doors {
    type Type = u8;
    type Error = &'static str;

    async fn create(&self) -> Result<u8, &'static str> {
        self.0.clone().await;
        if self.1 { Err("planned") } else { Ok(0) }
    }

    async fn recycle(&self, _: &mut u8, _: &Metrics) -> RecycleResult<&'static str> {
        common::pause().await;
        Ok(())
    }
}

#[test]
fn creations_and_preparations_that_end_early_are_counted() {
    let fails: Pool<Doors> = Pool::builder(Doors(Door::default(), true)).max_size(1).build().expect("a pool");
    let mut get = Task::new(fails.get());
    assert!(get.poll().is_pending());
    drop(get);
    fails.manager().0.open();
    assert!(block_on(fails.get()).is_err());
    let counted = balanced(&fails);
    assert_eq!((counted.gets, counted.served, counted.failed, counted.created), (2, 2, 1, 0));
    let makes: Pool<Doors> = Pool::builder(Doors(Door::default(), false)).max_size(1).build().expect("a pool");
    makes.manager().0.open();
    drop(block_on(makes.get()).expect("an object"));
    let mut get = Task::new(makes.get());
    assert!(get.poll().is_pending());
    drop(get);
    assert_eq!(balanced(&makes), Tally { gets: 2, served: 2, created: 1, cancelled: 1, ..NONE });
    let refuse = Hook::sync_fn(|_: &mut usize, _: &Metrics| Err(HookError::message("planned")));
    let refuses: Pool<Numbers> = pool_of(1).post_create(refuse).build().expect("a pool");
    assert!(block_on(refuses.get()).is_err());
    assert_eq!(balanced(&refuses), Tally { gets: 1, served: 1, created: 1, refused: 1, ..NONE });
}

#[test]
fn a_report_is_read_by_prometheus() {
    let pool: Pool<Numbers> = pool_of(2).name("the \"old\"\\stock\n").build().expect("a pool");
    let _ = Object::take(get(&pool));
    let held = get(&pool);
    let report = pool.tally();
    assert_eq!((report.name, report.status.size), ("the \"old\"\\stock\n", 1));
    let text = report.to_string();
    let figures: Vec<_> = text.lines().filter(|line| !line.starts_with('#')).collect();
    let label = r#"{pool="the \"old\"\\stock\n"}"#;
    assert_eq!(figures[0], format!("pool_max_size{label} 2"));
    assert!(figures.contains(&format!("pool_gets_total{label} 2").as_str()), "{text}");
    assert!(figures.contains(&r#"pool_given_up_total{pool="the \"old\"\\stock\n",cause="taken"} 1"#), "{text}");
    // Each figure has the kind of its name above it, and a number at its end.
    for line in &figures {
        let (name, rest) = line.split_once('{').expect("it has a label");
        let kind = if name.ends_with("_total") { "counter" } else { "gauge" };
        assert!(text.contains(&format!("# TYPE {name} {kind}\n{name}{{")), "{line}");
        assert!(rest.rsplit_once("} ").is_some_and(|(_, number)| number.parse::<u64>().is_ok()), "{line}");
    }
    let unnamed: Pool<Numbers> = pool_of(1).build().expect("a pool");
    assert!(unnamed.tally().to_string().starts_with("# TYPE pool_max_size gauge\npool_max_size{pool=\"\"} 1\n"));
    drop(held);
}

#[test]
fn the_books_balance_after_a_storm() {
    let pool: Pool<Numbers> = pool_of(4).pre_recycle(Limits::none().uses(3)).build().expect("a pool");
    let threads: Vec<_> = (0..4)
        .map(|turn| {
            let pool = pool.clone();
            std::thread::spawn(move || {
                for at in 0..500 {
                    let object = deadpool::wait(pool.get()).expect("an object");
                    match (at + turn) % 7 {
                        0 => _ = Object::take(object),
                        1 => pool.resize(2 + at % 4),
                        2 => _ = pool.retain(|number, _| number % 2 == 0),
                        _ => {}
                    }
                    balanced(&pool);
                }
            })
        })
        .collect();
    threads.into_iter().for_each(|it| it.join().expect("a thread"));
    let counted = balanced(&pool);
    assert_eq!((counted.gets, counted.served, counted.failed), (2000, 2000, 0));
    deadpool::wait(pool.drain());
    assert_eq!(balanced(&pool).created, counted.created);
}

#[test]
fn a_tally_and_its_status_are_of_one_moment() {
    let pool: Pool<Numbers> = pool_of(4).build().expect("a pool");
    // (so often another thread has made steps between two looks)
    let looks = || {
        let (mut changes, mut last) = (0, 0);
        while changes < 200 {
            let taken = balanced(&pool).taken;
            changes += usize::from(taken != last);
            last = taken;
            std::thread::yield_now();
        }
    };
    std::thread::scope(|scope| {
        let looking = scope.spawn(looks);
        while !looking.is_finished() {
            let _ = Object::take(get(&pool));
        }
    });
}

#[test]
fn a_count_is_no_entry_of_a_journal_but_the_status_is() {
    let pool: Pool<Numbers> = pool_of(1).journal(9).build().expect("a pool");
    let entries = pool.journal().entries.len();
    let _ = pool.tally();
    assert_eq!(pool.journal().entries.len(), entries + 1);
}
