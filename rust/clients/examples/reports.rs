//! Reports of two managed pools and of an unmanaged one, as one text for Prometheus. `.ci/rust-clients` has Prometheus' own parser read it.
use deadpool::managed::{Manager, Metrics, Pool, RecycleResult};
use deadpool::{Reports, unmanaged};
use std::convert::Infallible;
use std::error::Error;

struct Numbers;

impl Manager for Numbers {
    type Type = u64;
    type Error = Infallible;

    async fn create(&self) -> Result<u64, Infallible> {
        Ok(0)
    }

    async fn recycle(&self, _: &mut u64, _: &Metrics) -> RecycleResult<Infallible> {
        Ok(())
    }
}

fn main() -> Result<(), Box<dyn Error>> {
    let pool = |name| Pool::<Numbers>::builder(Numbers).max_size(2).name(name).build();
    let pools = [pool("orders")?, pool("C:\\new\n\"orders\"")?];
    let letters = unmanaged::Pool::from(["a letter", "another"]);
    let (_number, _letter) = (deadpool::wait(pools[1].get())?, letters.try_get()?);
    let mut reports: Reports = pools.iter().map(Pool::tally).collect();
    reports.push(unmanaged::Report { name: "letters", ..letters.tally() });
    print!("{reports}");
    Ok(())
}
