//! The job that a call makes.

use std::time::{Duration, Instant};

use crate::answers::Stance;
use crate::error::Error;
use crate::json::Value;
use crate::script::Op;
use crate::session::Session;

/// A job: a script of at most eight operations on the cells of one lock.
#[derive(Clone, Copy, Debug)]
pub struct Job<'a> {
    lock: &'a str,
    script: &'a [Op],
    number: Option<u64>,
    wait: Option<Duration>,
}

impl<'a> Job<'a> {
    /// A job of the next number, which waits for its lock as long as it takes.
    pub fn new(lock: &'a str, script: &'a [Op]) -> Job<'a> {
        Job { lock, script, number: None, wait: None }
    }

    /// The job's number. A program that may itself be killed gives it, so that it can give the same one when it comes
    /// back.
    pub fn number(self, number: u64) -> Job<'a> {
        Job { number: Some(number), ..self }
    }

    /// How long the call waits for the lock; with zero it tries once.
    pub fn wait(self, time: Duration) -> Job<'a> {
        Job { wait: Some(time), ..self }
    }

    pub(crate) fn script_value(&self) -> Value {
        Value::List(self.script.iter().map(|it| it.value()).collect())
    }
}

/// The job that a call is about: how long it waits for the lock, and what the server is known to have received of it.
#[derive(Debug)]
pub(crate) struct InHand {
    pub(crate) lock: Option<String>,
    pub(crate) given: Option<u64>,
    ends: Option<Instant>,
    /// The number under which its line was sent, or may have been.
    pub(crate) sent: Option<u64>,
    /// Whether the server is known to have received it.
    pub(crate) is_begun: bool,
    /// Whether it was pending before this call.
    pub(crate) again: bool,
    /// Whether another session began after it was first sent.
    pub(crate) is_resent: bool,
    /// Inside: the worker's life, after which nobody else may have attached it.
    pub(crate) after: Option<u64>,
}

impl InHand {
    pub(crate) fn of(job: &Job<'_>) -> InHand {
        InHand { lock: Some(job.lock.to_string()), given: job.number, ..InHand::none(job.wait) }
    }

    /// No job, or the one that is pending.
    pub(crate) fn none(wait: Option<Duration>) -> InHand {
        InHand {
            lock: None,
            given: None,
            ends: wait.and_then(|it| Instant::now().checked_add(it)),
            sent: None,
            is_begun: false,
            again: false,
            is_resent: false,
            after: None,
        }
    }

    /// The number under which it is sent: the number that was given, or else, in the session in which it is first sent,
    /// the number of the pending job, or else the next number.
    pub(crate) fn start(&mut self, session: &Session) -> u64 {
        if let Some(number) = self.sent {
            return number;
        }
        let is_pending = session.stance != Stance::Ready;
        self.again = is_pending && self.given.map_or(true, |it| it == session.number);
        self.is_begun = self.again;
        let number = self.given.unwrap_or(session.number.saturating_add(u64::from(!is_pending)));
        self.sent = Some(number);
        number
    }

    /// The next number, under which it is sent after its own number was given up, so that nothing of it was done.
    pub(crate) fn start_anew(&mut self, session: &Session) -> u64 {
        self.again = false;
        self.is_begun = false;
        self.sent = Some(session.number.saturating_add(1));
        session.number.saturating_add(1)
    }

    /// How many milliseconds the server should wait for the lock in the next order.
    pub(crate) fn milliseconds(&self, most: Duration) -> u64 {
        let left = self.ends.map_or(most, |ends| most.min(ends.saturating_duration_since(Instant::now())));
        u64::try_from(left.as_millis()).unwrap_or(0)
    }

    pub(crate) fn is_over(&self) -> bool {
        self.ends.map_or(false, |ends| Instant::now() >= ends)
    }

    /// The error if what was sent before cannot have led to where this later session found the worker.
    pub(crate) fn must_fit(&mut self, session: &Session) -> Result<(), Error> {
        let number = match self.sent {
            Some(number) => number,
            None => return Ok(()),
        };
        self.is_resent = true;
        let is_before =
            !self.is_begun && session.stance == Stance::Ready && session.number.checked_add(1) == Some(number);
        if session.number == number || is_before {
            Ok(())
        } else {
            Err(Error::Overtaken { number, found: Some(session.number), receipt: None })
        }
    }
}
