//! What a pool asks of its backend.
use super::RecycleError;
use std::future::Future;
#[cfg(not(target_arch = "wasm32"))]
use std::time::{Duration, Instant};

/// How a recycling ended.
pub type RecycleResult<E> = Result<(), RecycleError<E>>;

/// Makes the objects of a pool, and says of each that came back whether it can be used again.
///
/// # Cancel safety
///
/// Its futures are dropped at any await if the get is dropped, or if their timeout is over. The pool then gives up the object that was
/// recycled. What a creation has opened until then is for the manager's own values to close.
///
/// # Panics
///
/// If a call panics, so does the get for which it was made. The pool counts the object as given up, and goes on.
///
/// ```
/// use deadpool::managed::{Manager, Metrics, RecycleError, RecycleResult};
/// use std::io::Error;
/// use std::net::{Ipv4Addr, UdpSocket};
///
/// struct Sockets;
///
/// impl Manager for Sockets {
///     type Type = UdpSocket;
///     type Error = Error;
///
///     async fn create(&self) -> Result<UdpSocket, Error> {
///         UdpSocket::bind((Ipv4Addr::LOCALHOST, 0))
///     }
///
///     async fn recycle(&self, socket: &mut UdpSocket, _: &Metrics) -> RecycleResult<Error> {
///         match socket.take_error()? {
///             None => Ok(()),
///             Some(error) => Err(RecycleError::Backend(error)),
///         }
///     }
/// }
/// ```
pub trait Manager: Sync + Send {
    /// The values of the objects.
    type Type: Send;

    /// Why an object is not made, or not used again.
    type Error: Send;

    /// Makes a value.
    fn create(&self) -> impl Future<Output = Result<Self::Type, Self::Error>> + Send;

    /// Makes a value ready to be handed out once more, or refuses it: then the pool gives it up.
    fn recycle(
        &self,
        obj: &mut Self::Type,
        metrics: &Metrics,
    ) -> impl Future<Output = RecycleResult<Self::Error>> + Send;

    /// Is told of each value that the pool gives up, but not of those that a resize, a close or the last handle takes.
    fn detach(&self, _obj: &mut Self::Type) {}
}

/// What is known of an object's past. On wasm32 it has a count alone, as in the crate deadpool.
#[derive(Clone, Copy, Debug)]
#[must_use]
pub struct Metrics {
    /// When it was created.
    #[cfg(not(target_arch = "wasm32"))]
    pub created: Instant,
    /// When it was last handed out again.
    #[cfg(not(target_arch = "wasm32"))]
    pub recycled: Option<Instant>,
    /// How often it was handed out again.
    pub recycle_count: usize,
}

impl Metrics {
    /// How long ago it was created.
    #[cfg(not(target_arch = "wasm32"))]
    #[must_use]
    pub fn age(&self) -> Duration {
        self.created.elapsed()
    }

    /// How long ago it was last handed out.
    #[cfg(not(target_arch = "wasm32"))]
    #[must_use]
    pub fn last_used(&self) -> Duration {
        self.recycled.unwrap_or(self.created).elapsed()
    }

    #[inline]
    pub(super) fn recycled_now(&mut self) {
        #[cfg(not(target_arch = "wasm32"))]
        {
            self.recycled = Some(Instant::now());
        }
        self.recycle_count = self.recycle_count.saturating_add(1);
    }
}

impl Default for Metrics {
    fn default() -> Self {
        Metrics {
            #[cfg(not(target_arch = "wasm32"))]
            created: Instant::now(),
            #[cfg(not(target_arch = "wasm32"))]
            recycled: None,
            recycle_count: 0,
        }
    }
}
