//! The tasks that move money, and how what they try is cancelled.
use crate::{ACCOUNTS, LIMIT, Ledger, TRANSFERS, common::cut};
use deadpool_postgres::{Client, ClientWrapper, Pool, PoolError};
use std::sync::Arc;
use std::sync::atomic::{AtomicUsize, Ordering::SeqCst};
use std::time::Duration;
use tokio::time::{sleep, timeout};
use tokio_postgres::Error;

/// Numbers that look random, the same for each seed.
pub struct Random(u64);

impl Random {
    pub fn new(seed: u64) -> Self {
        Random(seed.wrapping_mul(0x2545_F491_4F6C_DD1D) | 1)
    }

    pub fn below(&mut self, bound: u64) -> u64 {
        self.0 ^= self.0 << 13;
        self.0 ^= self.0 >> 7;
        self.0 ^= self.0 << 17;
        (self.0 >> 11) % bound
    }
}

/// One transfer. Its number is that of the attempt.
#[derive(Clone, Copy)]
struct Transfer {
    number: i64,
    payer: i64,
    payee: i64,
    amount: i64,
    is_slow: bool,
}

impl Transfer {
    fn new(number: usize, random: &mut Random) -> Self {
        let payer = random.below(ACCOUNTS as u64) as i64;
        let payee = (payer + 1 + random.below(ACCOUNTS as u64 - 1) as i64) % ACCOUNTS;
        let (amount, is_slow) = (random.below(50) as i64, random.below(20) == 0);
        Transfer { number: number as i64, payer, payee, amount, is_slow }
    }

    /// In one transaction. The accounts are changed in their order, so that no two wait for each other.
    async fn make(self, client: &mut ClientWrapper) -> Result<(), Error> {
        let Transfer { number, payer, payee, amount, is_slow } = self;
        let transaction = client.transaction().await?;
        let change = transaction.prepare_cached("UPDATE accounts SET balance = balance + $2 WHERE id = $1").await?;
        let note = transaction.prepare_cached("INSERT INTO moves VALUES ($1, $2, $3, $4)").await?;
        let mut changes = [(payer, -amount), (payee, amount)];
        changes.sort_unstable();
        let [(first, by), (second, by_too)] = changes;
        // (sent at once, and done in this order)
        tokio::try_join!(
            async { transaction.execute(&change, &[&first, &by]).await },
            async { transaction.execute(&change, &[&second, &by_too]).await },
            async { transaction.execute(&note, &[&number, &payer, &payee, &amount]).await },
        )?;
        if is_slow {
            transaction.batch_execute("SELECT pg_sleep(0.002)").await?;
        }
        transaction.commit().await
    }
}

/// How an attempt ended.
enum End {
    Kept,
    Failed,
    Late,
    Unconnected,
    Cancelled,
}

/// When an attempt is cancelled: never, so long after its begin, or after so many polls. The first ones of these are its wait, its
/// connect or recycling, and its first queries.
#[derive(Clone, Copy)]
enum Cut {
    Never,
    Timeout(Duration),
    Select(Duration),
    Abort(Duration),
    Polls(usize),
}

impl Cut {
    /// Of the times half come before a transfer of the usual time ends, on a fast machine and on a slow one.
    fn new(random: &mut Random, usual_time: Duration) -> Self {
        let (after, polls) = (usual_time.mul_f64(random.below(2000) as f64 / 1000.0), random.below(7) as usize);
        match random.below(16) {
            0 => Cut::Timeout(after),
            1 => Cut::Select(after),
            2 => Cut::Abort(after),
            3..6 => Cut::Polls(polls),
            _ => Cut::Never,
        }
    }
}

/// Counts the connections that are out.
struct Out<'a>(&'a AtomicUsize);

impl<'a> Out<'a> {
    fn new(count: &'a AtomicUsize) -> Self {
        assert!(count.fetch_add(1, SeqCst) < LIMIT, "more than {LIMIT} connections are out");
        Out(count)
    }
}

impl Drop for Out<'_> {
    fn drop(&mut self) {
        self.0.fetch_sub(1, SeqCst);
    }
}

async fn attempt(pool: &Pool, ledger: &Ledger, transfer: Transfer) -> End {
    let mut client: Client = match pool.get().await {
        Ok(client) => client,
        Err(PoolError::Timeout(_)) => return End::Late,
        Err(PoolError::Backend(_)) => return End::Unconnected,
        Err(other) => panic!("{other}"),
    };
    // (it is dropped before the connection)
    let _out = Out::new(&ledger.out);
    if transfer.make(&mut client).await.is_ok() { End::Kept } else { End::Failed }
}

/// An attempt, in a task of its own if it is to be aborted.
async fn attempt_cut(pool: &Pool, ledger: &Arc<Ledger>, transfer: Transfer, until: Cut) -> End {
    let attempted = attempt(pool, ledger, transfer);
    match until {
        Cut::Never => attempted.await,
        Cut::Polls(count) => cut(count, attempted).await.unwrap_or(End::Cancelled),
        Cut::Timeout(after) => timeout(after, attempted).await.unwrap_or(End::Cancelled),
        Cut::Select(after) => tokio::select! {
            end = attempted => end,
            () = sleep(after) => End::Cancelled,
        },
        Cut::Abort(after) => {
            let (pool, ledger) = (pool.clone(), ledger.clone());
            let mut task = tokio::spawn(async move { attempt(&pool, &ledger, transfer).await });
            let ended = match timeout(after, &mut task).await {
                Ok(ended) => ended,
                Err(_) => {
                    task.abort();
                    task.await
                }
            };
            match ended {
                Ok(end) => end,
                Err(error) if error.is_cancelled() => End::Cancelled,
                Err(error) => panic!("{error}"),
            }
        }
    }
}

/// Makes transfers until enough are kept.
pub async fn make(pool: Pool, ledger: Arc<Ledger>, seed: u64) {
    let mut random = Random::new(seed + 1);
    while ledger.kept() < TRANSFERS {
        let transfer = Transfer::new(ledger.begun.fetch_add(1, SeqCst), &mut random);
        let counted = match attempt_cut(&pool, &ledger, transfer, Cut::new(&mut random, ledger.usual_time())).await {
            End::Kept => {
                ledger.kept.lock().expect("no task has panicked").push(transfer.number);
                continue;
            }
            End::Cancelled => &ledger.cancelled,
            End::Failed => &ledger.failed,
            End::Late => &ledger.late,
            End::Unconnected => {
                sleep(Duration::from_millis(10)).await;
                &ledger.unconnected
            }
        };
        counted.fetch_add(1, SeqCst);
    }
}
