//! Tokens that threads wait for, and futures that they wait for by these.
use crate::handover::{holds_a_lock, me, point};
use crate::operation::Operation;
use std::pin::{Pin, pin};
use std::sync::Arc;
use std::task::{Context, Poll, Wake, Waker};

/// Waits for a token, as its waker gives one.
pub fn park_on(token: usize) {
    point(Operation::Park(token));
}

/// A waker that lets the thread go on which waits for this token.
struct Token(usize);

impl Wake for Token {
    fn wake(self: Arc<Self>) {
        self.wake_by_ref();
    }

    fn wake_by_ref(self: &Arc<Self>) {
        assert!(!holds_a_lock(), "a waker is called under the lock");
        point(Operation::Unpark(self.0));
    }
}

/// The waker of a token. Those of a program's own are below 100.
pub fn token_waker(token: usize) -> Waker {
    Waker::from(Arc::new(Token(token)))
}

/// Waits in a thread for what a future gives.
pub fn block_on<F: Future>(future: F) -> F::Output {
    let mut future = pin!(future);
    let token = 100 + me().unwrap_or_default();
    let waker = token_waker(token);
    loop {
        if let Poll::Ready(output) = future.as_mut().poll(&mut Context::from_waker(&waker)) {
            return output;
        }
        park_on(token);
    }
}

/// Polls once with a waker that nobody hears.
pub fn poll_with_dead_waker<F: Future>(future: Pin<&mut F>) -> Poll<F::Output> {
    // (another waker at each call, so that none is taken for another)
    struct Dead(#[expect(dead_code)] usize);
    impl Wake for Dead {
        fn wake(self: Arc<Self>) {}
    }
    let waker = Waker::from(Arc::new(Dead(0)));
    future.poll(&mut Context::from_waker(&waker))
}
