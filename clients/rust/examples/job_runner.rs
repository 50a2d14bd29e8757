//! Makes the jobs of a worker up to number COUNT, each once, and prints their receipts. It may be killed at any moment
//! and started again; a receipt may be printed twice then.
//!
//! `cargo run --example job_runner -- 7000 0 bank 100`

use std::env;
use std::error::Error;

use rme_client::{Error as RmeError, Job, Op, Options, Receipt, Worker};

/// What job `number` adds to cell 0.
fn amount(worker: u32, number: u64) -> u64 {
    (1 << 62) + 1000 * number + u64::from(worker)
}

fn print(receipt: &Receipt) {
    println!("{} {} {} {}", receipt.worker, receipt.number, receipt.place, receipt.reply);
}

/// Makes the job with the program's own work inside. If the connection broke meanwhile, the job's number tells whether
/// it counted.
fn inside(worker: &mut Worker, job: Job<'_>) -> Result<Receipt, RmeError> {
    loop {
        let made = match worker.enter(job) {
            Ok(inside) => inside.commit(), // the work is done before it, and may be done again
            Err(error) => Err(error),
        };
        match made {
            Err(RmeError::Done(receipt)) => return Ok(receipt),
            Err(RmeError::Overtaken { found: None, .. }) => {}
            made => return made,
        }
    }
}

fn main() -> Result<(), Box<dyn Error>> {
    let words: Vec<String> = env::args().skip(1).collect();
    let [port, number, lock, count] =
        <[String; 4]>::try_from(words).map_err(|_| "job_runner PORT WORKER LOCK COUNT")?;
    let (number, count): (u32, u64) = (number.parse()?, count.parse()?);
    let mut worker = Worker::new([("127.0.0.1", port.parse()?)], number, Options::new().label("job_runner"))?;
    worker.finish(None)?.iter().for_each(print); // what an earlier run has left, or did last
    for next in worker.next_number()?..=count {
        let script = [Op::Add(0, amount(number, next)), Op::Add(1, 1)];
        let job = Job::new(&lock, &script);
        let receipt = if next % 2 == 0 { inside(&mut worker, job.number(next))? } else { worker.submit(job)? };
        print(&receipt);
    }
    Ok(())
}
