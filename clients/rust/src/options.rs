//! How a client finds its server, and how long it waits.

use std::fs::File;
use std::io::{BufRead, BufReader};
use std::path::PathBuf;
use std::time::{Duration, Instant};

use crate::connection::Connection;
use crate::error::{Error, Failure};
use crate::json::{object, Value};

/// Refusals that clients know.
pub(crate) mod codes {
    pub(crate) const BUSY: u64 = 9;
    pub(crate) const IDLE: u64 = 10;
    pub(crate) const DIFFERS: u64 = 17;
    pub(crate) const TAKEN: u64 = 18;
    pub(crate) const NOT_WAITING: u64 = 21;
    pub(crate) const OVERTAKEN: u64 = 26;
}

/// The least time to wait for the answer to a secret: a wrong one is answered after a second.
const LEAST: Duration = Duration::from_secs(5);

/// The longest time for an answer: a year.
const LONGEST: Duration = Duration::from_secs(365 * 24 * 3600);

/// How a client finds its server, and how long it waits.
#[derive(Clone, Debug)]
pub struct Options {
    pub(crate) timeout: Duration,
    pub(crate) connect_timeout: Option<Duration>,
    pub(crate) take: bool,
    pub(crate) label: Option<String>,
    secret: Secret,
    space: Option<String>,
}

#[derive(Clone)]
enum Secret {
    Absent,
    Text(String),
    File(PathBuf),
}

impl std::fmt::Debug for Secret {
    fn fmt(&self, out: &mut std::fmt::Formatter<'_>) -> std::fmt::Result {
        match self {
            Secret::Absent => out.write_str("Absent"),
            Secret::Text(_) => out.write_str("Text(..)"),
            Secret::File(path) => write!(out, "File({path:?})"),
        }
    }
}

impl Default for Options {
    fn default() -> Options {
        Options {
            timeout: Duration::from_secs(30),
            connect_timeout: None,
            take: false,
            label: None,
            secret: Secret::Absent,
            space: None,
        }
    }
}

impl Options {
    /// A call waits 30 seconds for an answer, and for ever for a session; there is no secret and no space.
    pub fn new() -> Options {
        Options::default()
    }

    /// A connection counts as broken if an answer has not come as a whole within this time.
    pub fn timeout(self, time: Duration) -> Options {
        Options { timeout: time.clamp(Duration::from_millis(1), LONGEST), ..self }
    }

    /// How long a call tries to get a session, each time that one is needed: it waits for a server that is not there or
    /// is full, and for the end of another client that has the worker. With zero it tries once. Look-ups and the calls
    /// of `Spaces` are made once in any case.
    pub fn connect_timeout(self, time: Duration) -> Options {
        Options { connect_timeout: Some(time), ..self }
    }

    /// The worker is first taken over from a client that has it, whose connection is closed: that client must be known
    /// to be gone.
    pub fn take(self, take: bool) -> Options {
        Options { take, ..self }
    }

    /// The `status` of a server with a state shows this text of the worker: at most 64 bytes.
    pub fn label(self, label: &str) -> Options {
        Options { label: Some(label.to_string()), ..self }
    }

    /// The secret with which each session begins, at a server with keys.
    pub fn secret(self, secret: &str) -> Options {
        Options { secret: Secret::Text(secret.to_string()), ..self }
    }

    /// The same, as the first line of a file, which is read for each session.
    pub fn key_file(self, path: impl Into<PathBuf>) -> Options {
        Options { secret: Secret::File(path.into()), ..self }
    }

    /// The space that each session uses, at a server of spaces.
    pub fn space(self, space: &str) -> Options {
        Options { space: Some(space.to_string()), ..self }
    }

    pub(crate) fn without_space(self) -> Options {
        Options { space: None, ..self }
    }

    pub(crate) fn must_be_good(&self) -> Result<(), Error> {
        match &self.label {
            Some(label) if label.len() > 64 => Err(Error::Invalid("a label has at most 64 bytes")),
            _ => Ok(()),
        }
    }

    /// The orders with which each session begins.
    pub(crate) fn first_orders(&self) -> Result<Vec<Value>, Error> {
        let secret = match &self.secret {
            Secret::Absent => None,
            Secret::Text(text) => Some(text.clone()),
            Secret::File(path) => {
                let mut line = String::new();
                let file = File::open(path).map_err(Error::KeyFile)?;
                BufReader::new(file).read_line(&mut line).map_err(Error::KeyFile)?;
                Some(line.trim().to_string())
            }
        };
        let hello = secret.map(|it| object(vec![("do", "hello".into()), ("secret", it.as_str().into())]));
        let using = self.space.as_ref().map(|it| object(vec![("do", "use".into()), ("space", it.as_str().into())]));
        Ok(hello.into_iter().chain(using).collect())
    }
}

/// Begins a session with these orders, for which there is this time. A full server has no session now.
pub(crate) fn begin(connection: &mut Connection, orders: &[Value], time: Duration) -> Result<(), Failure> {
    let ends = Instant::now() + time;
    for order in orders {
        let name = order.get("do").and_then(Value::as_text).unwrap_or_default();
        let least = if name == "hello" { LEAST } else { Duration::from_millis(1) };
        let left = ends.saturating_duration_since(Instant::now()).max(least);
        let answer = connection.ask(order, left)?;
        answer.must_be_of(name).map_err(full_or)?;
    }
    Ok(())
}

/// The error for a refusal of an order with which a session begins.
pub(crate) fn full_or(error: Error) -> Failure {
    match error.code() {
        Some(codes::BUSY) => Failure::Lost("the server has as many sessions as it may have".to_string()),
        _ => error.into(),
    }
}
