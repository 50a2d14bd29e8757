//! Answers of a server, whose members are checked before they are used.

use crate::error::Error;
use crate::json::Value;
use crate::script::Op;

/// The receipt of a job that counted: it was the `place`-th section of its lock; `reply` is the value of its last
/// operation.
#[derive(Clone, Debug, PartialEq, Eq)]
pub struct Receipt {
    pub lock: String,
    pub number: u64,
    pub place: u64,
    pub reply: u64,
    pub worker: u32,
}

/// The stance of a worker.
#[derive(Clone, Copy, Debug, PartialEq, Eq)]
pub enum Stance {
    /// No job is pending.
    Ready,
    /// A job is pending, and waits for its lock.
    Climb,
    /// A job is pending, and the worker is inside its lock.
    Held,
}

impl Stance {
    /// The word that the server has for it.
    pub fn word(self) -> &'static str {
        match self {
            Stance::Ready => "ready",
            Stance::Climb => "climb",
            Stance::Held => "held",
        }
    }
}

/// A job that is not over, as it was handed over.
#[derive(Clone, Debug, PartialEq, Eq)]
pub struct PendingJob {
    pub lock: String,
    pub number: u64,
    pub script: Vec<Op>,
    pub stance: Stance,
}

/// One line that was answered. Each method answers a member of it, or the error for a malformed answer.
pub(crate) struct Answer {
    line: Vec<u8>,
    pub(crate) value: Value,
}

impl Answer {
    pub(crate) fn new(line: Vec<u8>) -> Result<Answer, Error> {
        let value = match std::str::from_utf8(&line) {
            Ok(text) => Value::parse(text),
            Err(_) => Err("it is no text"),
        };
        match value {
            Ok(value @ Value::Object(_)) => Ok(Answer { line, value }),
            Ok(_) => Err(broken(&line, "it is no object")),
            Err(_) => Err(broken(&line, "it is not JSON")),
        }
    }

    pub(crate) fn broken(&self, reason: &str) -> Error {
        broken(&self.line, reason)
    }

    /// Whether the order was refused: by this error.
    pub(crate) fn must_be_of(&self, order: &str) -> Result<(), Error> {
        if let Some(code) = self.value.get("code") {
            let name = self.value.get("error").and_then(Value::as_text);
            let (code, name) = code.as_number().zip(name).ok_or_else(|| self.broken("it is not a refusal"))?;
            let expected = self.value.get("expected").and_then(Value::as_number);
            return Err(Error::Refused { code: Some(code), name: name.to_string(), expected });
        }
        if self.value.get("ok").and_then(Value::as_text) != Some(order) {
            return Err(self.broken(&format!("it does not answer `{order}`")));
        }
        Ok(())
    }

    pub(crate) fn has(&self, name: &str) -> bool {
        self.value.get(name).is_some()
    }

    /// The member must be true.
    pub(crate) fn must_say(&self, name: &str) -> Result<(), Error> {
        match self.value.get(name) {
            Some(Value::Bool(true)) => Ok(()),
            _ => Err(self.broken(&format!("`{name}` is not true"))),
        }
    }

    pub(crate) fn number(&self, name: &str) -> Result<u64, Error> {
        self.number_in(&self.value, name)
    }

    pub(crate) fn number_in(&self, object: &Value, name: &str) -> Result<u64, Error> {
        let found = object.get(name).and_then(Value::as_number);
        found.ok_or_else(|| self.broken(&format!("`{name}` is not a number")))
    }

    /// The number of a worker.
    pub(crate) fn worker_in(&self, object: &Value, name: &str) -> Result<u32, Error> {
        let found = self.number_in(object, name)?;
        u32::try_from(found).map_err(|_| self.broken(&format!("`{name}` is no worker")))
    }

    pub(crate) fn text_in(&self, object: &Value, name: &str) -> Result<String, Error> {
        let found = object.get(name).and_then(Value::as_text);
        found.map(str::to_string).ok_or_else(|| self.broken(&format!("`{name}` is no text")))
    }

    pub(crate) fn bool_in(&self, object: &Value, name: &str) -> Result<bool, Error> {
        object.get(name).and_then(Value::as_bool).ok_or_else(|| self.broken(&format!("`{name}` is not true or false")))
    }

    pub(crate) fn list_in<'a>(&self, object: &'a Value, name: &str) -> Result<&'a [Value], Error> {
        object.get(name).and_then(Value::as_list).ok_or_else(|| self.broken(&format!("`{name}` is not a list")))
    }

    pub(crate) fn stance_in(&self, object: &Value) -> Result<Stance, Error> {
        match object.get("stance").and_then(Value::as_text) {
            Some("ready") => Ok(Stance::Ready),
            Some("climb") => Ok(Stance::Climb),
            Some("held") => Ok(Stance::Held),
            _ => Err(self.broken("`stance` is not a stance of a session")),
        }
    }

    /// The receipt of the worker's job of this number, or `None` for null.
    pub(crate) fn receipt(&self, name: &str, worker: u32, number: u64) -> Result<Option<Receipt>, Error> {
        let found = self.value.get(name).ok_or_else(|| self.broken(&format!("`{name}` is no receipt")))?;
        if *found == Value::Null {
            return Ok(None);
        }
        let receipt = Receipt {
            lock: self.text_in(found, "lock")?,
            number: self.number_in(found, "number")?,
            place: self.number_in(found, "place")?,
            reply: self.number_in(found, "reply")?,
            worker: self.worker_in(found, "worker")?,
        };
        if (receipt.worker, receipt.number) != (worker, number) {
            return Err(self.broken(&format!("the receipt is not that of job {number} of worker {worker}")));
        }
        Ok(Some(receipt))
    }

    /// The script of a pending job.
    pub(crate) fn script(&self) -> Result<Vec<Op>, Error> {
        let found: Option<Vec<Op>> = self.list_in(&self.value, "script")?.iter().map(Op::read).collect();
        found.ok_or_else(|| self.broken("`script` is not a list of operations"))
    }
}

pub(crate) fn broken(line: &[u8], reason: &str) -> Error {
    Error::Protocol { line: line.to_vec(), reason: reason.to_string() }
}
