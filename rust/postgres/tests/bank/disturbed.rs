//! The server ends connections of the pool, and is restarted twice.
use crate::{Ledger, NAME, TRANSFERS, common::judge};
use std::process::{Command, Stdio};
use std::sync::Arc;
use std::time::Duration;
use tokio::time::sleep;

/// What was done to the pool's connections.
pub struct Disturbed {
    pub ended: usize,
    pub restarts: usize,
}

/// Restarts the server, and waits until it is there again.
async fn restart() {
    let path = std::env::var("WITH_POSTGRES_RESTART")
        .expect("WITH_POSTGRES_RESTART is the path of a program that restarts the server");
    let restarted = tokio::task::spawn_blocking(|| Command::new(path).stdout(Stdio::null()).status());
    assert!(restarted.await.expect("a thread").expect("the program starts").success(), "the server is not restarted");
}

/// How many transfers are kept between two ends of connections.
const BETWEEN: usize = 30;

/// Does so until enough transfers are kept: at a third and at two thirds of them the server is restarted.
pub async fn disturb(ledger: Arc<Ledger>) -> Disturbed {
    let one = format!(
        "SELECT pg_terminate_backend(pid) FROM pg_stat_activity WHERE application_name = '{NAME}' ORDER BY random() LIMIT 1"
    );
    let mut disturbed = Disturbed { ended: 0, restarts: 0 };
    let mut server = judge().await;
    while ledger.kept() < TRANSFERS {
        sleep(Duration::from_millis(5)).await;
        if disturbed.restarts < 2 && ledger.kept() >= TRANSFERS * (disturbed.restarts + 1) / 3 {
            restart().await;
            disturbed.restarts += 1;
            server = judge().await;
        }
        if ledger.kept() < disturbed.ended * BETWEEN {
            continue;
        }
        match server.query(&one, &[]).await {
            Ok(rows) => disturbed.ended += rows.len(),
            Err(_) => server = judge().await,
        }
    }
    disturbed
}
