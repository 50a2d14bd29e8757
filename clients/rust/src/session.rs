//! A session: a connection that has a worker, and what the answers on it say about the worker's stance.

use std::time::{Duration, Instant};

use crate::answers::{Answer, PendingJob, Receipt, Stance};
use crate::connection::Connection;
use crate::error::{Error, Failure};
use crate::json::{object, Value};
use crate::options::{codes, full_or};

/// For this time after an order a session cannot have ended for silence: a server's `--idle` is at least a second.
const FRESH: Duration = Duration::from_millis(200);

/// An order that works at a job.
#[derive(Clone)]
pub(crate) struct Order {
    pub(crate) name: &'static str,
    /// Of `submit` and `enter`: the lock, the number and the script.
    pub(crate) job: Option<(String, u64, Value)>,
}

impl Order {
    pub(crate) fn new(name: &'static str) -> Order {
        Order { name, job: None }
    }

    fn value(&self, wait: Option<u64>) -> Value {
        let mut members = vec![("do", Value::from(self.name))];
        if let Some((lock, number, script)) = &self.job {
            members.push(("lock", lock.as_str().into()));
            members.push(("number", (*number).into()));
            members.push(("script", script.clone()));
        }
        members.extend(wait.map(|it| ("wait", it.into())));
        object(members)
    }

    /// An answer has one of these members.
    fn outcomes(&self) -> &'static [&'static str] {
        match self.name {
            "commit" => &["receipt", "fell"],
            "enter" => &["receipt", "waiting", "withdrawn", "fell", "stance"],
            _ => &["receipt", "waiting", "withdrawn", "fell"],
        }
    }
}

/// A session that has the worker. `number` and `stance` are the worker's by the last answer, `lock` is the pending
/// job's, if it was handed over here, and `token` the section and the life of the job that was entered here.
#[derive(Debug)]
pub(crate) struct Session {
    connection: Connection,
    worker: u32,
    timeout: Duration,
    asked: Instant,
    pub(crate) number: u64,
    pub(crate) stance: Stance,
    pub(crate) lock: Option<String>,
    pub(crate) token: Option<(u64, u64)>,
}

impl Session {
    pub(crate) fn new(connection: Connection, worker: u32, timeout: Duration) -> Session {
        let asked = Instant::now();
        Session { connection, worker, timeout, asked, number: 0, stance: Stance::Ready, lock: None, token: None }
    }

    /// Takes the worker with this order. False if another session has it.
    pub(crate) fn attach(&mut self, order: &Value, time: Duration) -> Result<bool, Failure> {
        let asked = Instant::now();
        let answer = self.connection.ask(order, time)?;
        match answer.must_be_of("attach") {
            Err(error) if error.code() == Some(codes::TAKEN) => return Ok(false),
            told => told.map_err(full_or)?,
        }
        self.asked = asked;
        self.number = answer.number("number")?;
        self.stance = answer.stance_in(&answer.value)?;
        Ok(true)
    }

    /// Returns if the session has not ended. Then what was answered on it still holds, since no other client has had
    /// the worker.
    ///
    /// The server ends a session that is taken over before anybody else has its worker, so on one machine the end is
    /// seen here at once. It ends a silent session just after another has the worker. So an order without effect is
    /// sent if the last order was long ago.
    pub(crate) fn wake(&mut self) -> Result<(), Failure> {
        if !self.connection.is_quiet() {
            return Err(Failure::Lost("the session had ended".to_string()));
        }
        if self.asked.elapsed() >= FRESH {
            self.ask(&object(vec![("do", "ping".into())]))?;
        }
        Ok(())
    }

    /// Has the order done: the job's receipt, or `None` if it is still pending, and `stance` says where.
    pub(crate) fn hand(&mut self, order: &Order, wait: Option<u64>) -> Result<Option<Receipt>, Failure> {
        let (lock, number) = match &order.job {
            Some((lock, number, _)) => (Some(lock.clone()), *number),
            None => (None, self.number),
        };
        let answer = self.ask(&order.value(wait))?;
        let mut outcomes = order.outcomes().iter().filter(|it| answer.has(it));
        match (outcomes.next().copied(), outcomes.next()) {
            (Some("receipt"), None) => self.counted(&answer, number, lock).map(Some),
            (Some("stance"), None) => {
                let told = (answer.stance_in(&answer.value)?, answer.number("number")?);
                if told != (Stance::Held, number) {
                    return Err(answer.broken(&format!("it is not about job {number}")).into());
                }
                let token = (answer.number("section")?, answer.number("life")?);
                self.stands(Stance::Held, number, lock);
                self.token = Some(token);
                Ok(None)
            }
            (Some(outcome), None) => {
                answer.must_say(outcome)?;
                self.not_inside(outcome, number, lock)
            }
            _ => Err(answer.broken(&format!("it is no outcome of `{}`", order.name)).into()),
        }
    }

    fn not_inside(&mut self, outcome: &str, number: u64, lock: Option<String>) -> Result<Option<Receipt>, Failure> {
        match outcome {
            "fell" => Err(Failure::Lost("the worker fell".to_string())),
            "withdrawn" => {
                self.stands(Stance::Ready, number, None);
                let name = "withdrawn".to_string();
                Err(Error::Refused { code: None, name, expected: None }.into())
            }
            _ => {
                let lock = lock.or_else(|| self.lock.take());
                self.stands(Stance::Climb, number, lock);
                Ok(None)
            }
        }
    }

    /// The receipt of the job of this number, which must be of this lock, if one is named.
    fn counted(&mut self, answer: &Answer, number: u64, lock: Option<String>) -> Result<Receipt, Failure> {
        let receipt = answer.receipt("receipt", self.worker, number)?;
        let receipt = receipt.ok_or_else(|| answer.broken("the receipt is null"))?;
        self.stands(Stance::Ready, number, None);
        if lock.map_or(false, |it| it != receipt.lock) {
            return Err(Error::Overtaken { number, found: Some(number), receipt: Some(receipt) }.into());
        }
        Ok(receipt)
    }

    /// Gives up the pending job.
    pub(crate) fn withdraw(&mut self) -> Result<(), Failure> {
        let answer = self.ask(&object(vec![("do", "withdraw".into())]))?;
        if answer.has("fell") {
            return Err(Failure::Lost("the worker fell".to_string()));
        }
        self.must_be_about(&answer)?;
        self.stands(Stance::Ready, self.number, None);
        Ok(())
    }

    /// The last job's receipt; `None` if it was given up, or there was none.
    pub(crate) fn last(&mut self) -> Result<Option<Receipt>, Failure> {
        let answer = self.ask(&object(vec![("do", "last".into())]))?;
        Ok(answer.receipt("last", self.worker, self.number)?)
    }

    /// The pending job; `None` if none is pending.
    pub(crate) fn pending(&mut self) -> Result<Option<PendingJob>, Failure> {
        let answer = match self.ask(&object(vec![("do", "pending".into())])) {
            Err(Failure::Stop(error)) if error.code() == Some(codes::IDLE) => return Ok(None),
            told => told?,
        };
        self.must_be_about(&answer)?;
        Ok(Some(PendingJob {
            lock: answer.text_in(&answer.value, "lock")?,
            number: self.number,
            script: answer.script()?,
            stance: answer.stance_in(&answer.value)?,
        }))
    }

    /// The pending job of a worker that is known to have one.
    pub(crate) fn must_have_pending(&mut self) -> Result<PendingJob, Failure> {
        self.pending()?.ok_or_else(|| Failure::Lost("the job that was pending is gone".to_string()))
    }

    pub(crate) fn connection(&self) -> &Connection {
        &self.connection
    }

    fn must_be_about(&self, answer: &Answer) -> Result<(), Error> {
        if answer.number("number")? == self.number {
            Ok(())
        } else {
            Err(answer.broken(&format!("it is not about job {}", self.number)))
        }
    }

    fn ask(&mut self, order: &Value) -> Result<Answer, Failure> {
        let asked = Instant::now();
        let answer = self.connection.ask(order, self.timeout)?;
        self.asked = asked;
        answer.must_be_of(order.get("do").and_then(Value::as_text).unwrap_or_default())?;
        Ok(answer)
    }

    fn stands(&mut self, stance: Stance, number: u64, lock: Option<String>) {
        self.stance = stance;
        self.number = number;
        self.lock = lock;
        self.token = None;
    }
}
