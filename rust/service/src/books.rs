//! Whether a pool's tally is what its clients have seen.
use crate::Fault;
use crate::clients::Asked;
use deadpool_postgres::Report;
use std::sync::atomic::Ordering::SeqCst;

/// Fails unless what was created is there or was given up for one cause, and each refusal that a client saw is counted once.
pub fn judge(report: &Report<'_>, asked: &Asked) -> Result<(), Fault> {
    let tally = &report.tally;
    let given_up = tally.refused + tally.cancelled + tally.surplus + tally.not_retained + tally.taken + tally.dropped;
    let pairs = [
        ("created", tally.created, report.status.size as u64 + given_up),
        ("late", tally.late, asked.late.load(SeqCst)),
        ("crowded", tally.crowded, asked.crowded.load(SeqCst)),
        ("taken", tally.taken, asked.taken.load(SeqCst)),
    ];
    for (what, counted, seen) in pairs {
        if counted != seen {
            return Err(format!("{what} is {counted} in the tally, and {seen} were seen").into());
        }
    }
    // (the run was rough)
    if [tally.waited, tally.refused, tally.not_retained, tally.taken].contains(&0) {
        return Err(format!("it was calm: {tally:?}").into());
    }
    Ok(())
}
