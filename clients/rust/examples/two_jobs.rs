//! Adds twice to a cell: `cargo run --example two_jobs -- 7000 0 bank`.

use std::env;
use std::error::Error;

use rme_client::{Job, Op, Options, Worker};

fn main() -> Result<(), Box<dyn Error>> {
    let words: Vec<String> = env::args().skip(1).collect();
    let [port, number, lock] = <[String; 3]>::try_from(words).map_err(|_| "two_jobs PORT WORKER LOCK")?;
    let mut worker = Worker::new([("127.0.0.1", port.parse()?)], number.parse()?, Options::new())?;
    let inside = worker.enter(Job::new(&lock, &[Op::Add(0, 5)]))?;
    println!("job {} is inside", inside.number()); // your own work: nobody else is inside until the job has counted
    let receipt = inside.commit()?;
    println!("section {} of the lock, reply {}", receipt.place, receipt.reply);
    let receipt = worker.submit(Job::new(&lock, &[Op::Add(0, 5)]))?; // a job without work of your own
    println!("section {} of the lock, reply {}", receipt.place, receipt.reply);
    Ok(())
}
