//! Who asks the service: sixty-four tasks, more than may wait. Some leave before they are answered, and some break their connection.
use crate::Fault;
use deadpool::managed::Object;
use deadpool_postgres::{Client, Pool, PoolError, TimeoutType};
use std::sync::Arc;
use std::sync::atomic::{AtomicU64, Ordering::SeqCst};
use std::time::Duration;
use tokio::time::{sleep, timeout};

const TASKS: u64 = 64;
/// How many requests are to be answered.
pub const WANTED: u64 = 4000;
/// How long that may take.
const PATIENCE: Duration = Duration::from_secs(60);

/// What the clients have seen.
#[derive(Default)]
pub struct Asked {
    pub answered: AtomicU64,
    pub late: AtomicU64,
    pub crowded: AtomicU64,
    pub taken: AtomicU64,
}

/// Numbers that look random, the same for each seed.
struct Random(u64);

impl Random {
    fn below(&mut self, bound: u64) -> u64 {
        self.0 ^= self.0 << 13;
        self.0 ^= self.0 >> 7;
        self.0 ^= self.0 << 17;
        (self.0 >> 11) % bound
    }
}

/// What a client does with its connection.
#[derive(Clone, Copy)]
enum Request {
    Plain,
    /// The server ends the connection amid the request.
    Broken,
    /// The connection leaves the pool for good.
    Taken,
}

async fn answer(client: Client, request: Request, asked: &Asked) -> Result<(), Fault> {
    match request {
        Request::Plain => {
            let square = client.prepare_cached("SELECT $1::bigint * $1").await?;
            let row = client.query_one(&square, &[&7_i64]).await?;
            if row.get::<_, i64>(0) != 49 {
                return Err("a wrong answer".into());
            }
            asked.answered.fetch_add(1, SeqCst);
        }
        Request::Broken => drop(client.batch_execute("SELECT pg_terminate_backend(pg_backend_pid())").await),
        Request::Taken => {
            asked.taken.fetch_add(1, SeqCst);
            drop(Object::take(client));
        }
    }
    Ok(())
}

/// A request, and how its get was refused, if it was. A get is refused in one poll, so no count is lost if the client leaves.
async fn ask(pool: &Pool, request: Request, is_impatient: bool, asked: &Asked) {
    let got = if is_impatient { pool.try_get().await } else { pool.get().await };
    match got {
        // (a connection that was ended while it was idle may fail its request)
        Ok(client) => _ = answer(client, request, asked).await,
        Err(PoolError::Crowded) => {
            asked.crowded.fetch_add(1, SeqCst);
            sleep(Duration::from_millis(1)).await;
        }
        Err(PoolError::Timeout(TimeoutType::Wait)) => _ = asked.late.fetch_add(1, SeqCst),
        Err(_) => sleep(Duration::from_millis(5)).await,
    }
}

async fn ask_on(pool: Pool, asked: Arc<Asked>, seed: u64) {
    let mut random = Random(seed.wrapping_mul(0x2545_F491_4F6C_DD1D) | 1);
    while asked.answered.load(SeqCst) < WANTED {
        let request = match random.below(200) {
            0..4 => Request::Broken,
            4 => Request::Taken,
            _ => Request::Plain,
        };
        let asking = ask(&pool, request, random.below(16) == 0, &asked);
        if random.below(8) == 0 {
            let after = Duration::from_micros(random.below(4000));
            let _ = timeout(after, asking).await;
        } else {
            asking.await;
        }
    }
}

/// Asks until enough requests are answered.
pub async fn ask_all(pool: &Pool) -> Result<Arc<Asked>, Fault> {
    let asked = Arc::<Asked>::default();
    let tasks: Vec<_> = (1..=TASKS).map(|seed| tokio::spawn(ask_on(pool.clone(), asked.clone(), seed))).collect();
    let ended = timeout(PATIENCE, async {
        for task in tasks {
            task.await?;
        }
        Ok::<_, Fault>(())
    });
    match ended.await {
        Ok(ended) => ended.map(|()| asked),
        Err(_) => {
            Err(format!("{} requests are answered after {PATIENCE:?}: {pool:?}", asked.answered.load(SeqCst)).into())
        }
    }
}
