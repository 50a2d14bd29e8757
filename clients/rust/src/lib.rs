//! A client of `rme serve`, whose jobs count once each, whatever happens to its connections.
//!
//! A connection that breaks is made again, and the same line is sent until its answer comes.
//!
//! ```no_run
//! use rme_client::{Job, Op, Options, Worker};
//!
//! # fn main() -> Result<(), rme_client::Error> {
//! let mut worker = Worker::new([("127.0.0.1", 7000)], 0, Options::new())?;
//! let inside = worker.enter(Job::new("bank", &[Op::Add(0, 5)]))?;
//! // Your own work: no other worker is inside the lock until the job has counted.
//! let receipt = inside.commit()?;
//! println!("{} {}", receipt.place, receipt.reply);
//! let receipt = worker.submit(Job::new("bank", &[Op::Add(0, 5)]))?; // a job without work of your own
//! println!("{} {}", receipt.place, receipt.reply);
//! # Ok(())
//! # }
//! ```
//!
//! Start this program again after it was killed inside: the worker is still inside, [`Worker::enter`] goes on with the same
//! job, and [`Inside::again`] is true. Nobody else was inside meanwhile.

#![forbid(unsafe_code)]
#![warn(missing_debug_implementations, rust_2018_idioms)]

mod address;
mod answers;
mod connection;
mod error;
mod job;
#[doc(hidden)]
pub mod json;
mod observer;
mod options;
mod script;
mod session;
mod steps;
mod worker;

pub use address::Address;
pub use answers::{PendingJob, Receipt, Stance};
pub use error::Error;
pub use job::Job;
pub use observer::{Cells, LockStatus, Observer, Spaces, Status, WorkerStatus};
pub use options::Options;
pub use script::Op;
pub use worker::{Inside, Worker};
