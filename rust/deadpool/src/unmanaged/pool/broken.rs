//! A panic within a step closes the pool. No call of a user's can have a step panic, so it is planted here, under the lock.
use super::Pool;
use crate::unmanaged::{Object, PoolConfig, PoolError, Settings};
use std::future::Future;
use std::panic::{AssertUnwindSafe, catch_unwind};
use std::pin::pin;
use std::sync::Arc;
use std::sync::atomic::{AtomicUsize, Ordering};
use std::task::{Context, Poll, Wake, Waker};

#[derive(Default)]
struct Count(AtomicUsize);

impl Wake for Count {
    fn wake(self: Arc<Self>) {
        self.0.fetch_add(1, Ordering::SeqCst);
    }
}

fn now<F: Future>(future: F) -> F::Output {
    match pin!(future).poll(&mut Context::from_waker(Waker::noop())) {
        Poll::Ready(output) => output,
        Poll::Pending => panic!("the future is pending"),
    }
}

#[test]
fn a_panic_within_a_step_closes_the_pool() {
    for journal in [0, 100] {
        let pool = Pool::from_settings(&Settings { journal, ..PoolConfig::new(3).into() });
        let value = Arc::new(());
        for _ in 0..3 {
            pool.try_add(value.clone()).expect("room");
        }
        let (held, taken) = (pool.try_get().expect("an object"), pool.try_get().expect("an object"));
        let mut add = Box::pin(pool.add(value.clone()));
        let count = Arc::<Count>::default();
        assert!(add.as_mut().poll(&mut Context::from_waker(&Waker::from(count.clone()))).is_pending());
        assert!(catch_unwind(AssertUnwindSafe(|| pool.shared.step(|_| panic!("within a step")))).is_err());
        assert_eq!((Arc::strong_count(&value), count.0.load(Ordering::SeqCst)), (4, 1), "what was idle is dropped");
        assert!(now(add).is_err_and(|(_, why)| why == PoolError::Closed));
        let closed = crate::Status { max_size: 0, size: 0, available: 0, waiting: 0 };
        assert_eq!((pool.is_closed(), pool.status(), pool.tally().status), (true, closed, closed));
        assert!(matches!(now(pool.get()), Err(PoolError::Closed)) && pool.try_add(value.clone()).is_err());
        now(pool.drain());
        drop(held);
        assert_eq!(Arc::strong_count(&Object::take(taken)), 2);
        drop((pool.clone(), pool));
        assert_eq!(Arc::strong_count(&value), 1);
    }
}
