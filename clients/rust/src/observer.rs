//! Orders that need no worker, each over a connection of its own: look-ups, and the calls about spaces.

use std::time::{Duration, Instant};

use crate::address::{Address, Addresses};
use crate::answers::{Answer, Stance};
use crate::connection::Connection;
use crate::error::{Error, Failure};
use crate::json::{object, Value};
use crate::options::{begin, codes, Options};

/// What the cells of a lock hold. They are not settled while the lock has an owner whose job has not counted.
#[derive(Clone, Debug, PartialEq, Eq)]
pub struct Cells {
    pub cells: Vec<u64>,
    pub settled: bool,
}

/// The status of a lock: its owner, if it has one, and how many sections are finished.
#[derive(Clone, Debug, PartialEq, Eq)]
pub struct LockStatus {
    pub name: String,
    pub owner: Option<u32>,
    pub cells: Vec<u64>,
    pub settled: bool,
    pub sections: u64,
}

/// The status of a worker, as an attach would find it: `number` is that of its pending or else its last job. There is a
/// `lock` if a job is pending, and `blocked_by` if another worker holds the node that it needs next. `label` is the
/// label that its last client gave, and `seconds` is how long it has had this stance, as this server saw it.
#[derive(Clone, Debug, PartialEq, Eq)]
pub struct WorkerStatus {
    pub attached: bool,
    pub stance: Stance,
    pub number: u64,
    pub lock: Option<String>,
    pub blocked_by: Option<u32>,
    pub label: Option<String>,
    pub seconds: Option<u64>,
}

/// The status of all locks, and of all workers in the order of their numbers; and how many checkpoints there were.
#[derive(Clone, Debug, PartialEq, Eq)]
pub struct Status {
    pub epoch: u64,
    pub locks: Vec<LockStatus>,
    pub workers: Vec<WorkerStatus>,
}

/// Looks at a server that keeps its state, while it works. No worker is needed for it, and nothing changes.
///
/// Each call is one connection, made once. Its errors are [`Error::Unreachable`] if the server is not there, is full,
/// or has not answered in time, [`Error::Refused`], 1 if it keeps no state and 11 for a lock that it does not have, and
/// [`Error::Protocol`].
#[derive(Debug)]
pub struct Observer {
    caller: Caller,
}

impl Observer {
    /// # Errors
    /// [`Error::Invalid`] if there is no address.
    pub fn new<A: Into<Address>>(addresses: impl IntoIterator<Item = A>, options: Options) -> Result<Observer, Error> {
        Ok(Observer { caller: Caller::new(addresses, options)? })
    }

    /// The status of all locks and workers at one moment.
    ///
    /// # Errors
    /// Those of [`Observer`].
    pub fn status(&mut self) -> Result<Status, Error> {
        let answer = self.look("status", None)?;
        let locks = answer.list_in(&answer.value, "locks")?.iter().map(|it| lock_status(&answer, it));
        let workers = answer.list_in(&answer.value, "workers")?.iter().map(|it| worker_status(&answer, it));
        let (locks, workers) = (locks.collect::<Result<_, _>>()?, workers.collect::<Result<_, _>>()?);
        Ok(Status { epoch: answer.number("epoch")?, locks, workers })
    }

    /// The worker that owns the lock, whether it is attached or down; `None` if nobody does.
    ///
    /// # Errors
    /// Those of [`Observer`].
    pub fn owner(&mut self, lock: &str) -> Result<Option<u32>, Error> {
        let answer = self.look("owner", Some(lock))?;
        owner_in(&answer, &answer.value)
    }

    /// What the cells of the lock hold.
    ///
    /// # Errors
    /// Those of [`Observer`].
    pub fn cells(&mut self, lock: &str) -> Result<Cells, Error> {
        let answer = self.look("cells", Some(lock))?;
        let (cells, settled) = cells_in(&answer, &answer.value)?;
        Ok(Cells { cells, settled })
    }

    fn look(&mut self, name: &str, lock: Option<&str>) -> Result<Answer, Error> {
        let mut members = vec![("do", Value::from(name))];
        members.extend(lock.map(|it| ("lock", Value::from(it))));
        match self.caller.ask(&object(members), false) {
            Err(error) if error.code() == Some(codes::BUSY) => {
                let reason = "the server has as many sessions as it may have".to_string();
                Err(Error::Unreachable { reason, number: None })
            }
            told => told,
        }
    }
}

fn owner_in(answer: &Answer, object: &Value) -> Result<Option<u32>, Error> {
    match object.get("owner") {
        Some(Value::Null) => Ok(None),
        _ => answer.worker_in(object, "owner").map(Some),
    }
}

fn cells_in(answer: &Answer, object: &Value) -> Result<(Vec<u64>, bool), Error> {
    let cells = answer.list_in(object, "cells")?.iter().map(Value::as_number).collect::<Option<_>>();
    Ok((cells.ok_or_else(|| answer.broken("`cells` is not a list of cells"))?, answer.bool_in(object, "settled")?))
}

fn lock_status(answer: &Answer, object: &Value) -> Result<LockStatus, Error> {
    let (cells, settled) = cells_in(answer, object)?;
    Ok(LockStatus {
        name: answer.text_in(object, "name")?,
        owner: owner_in(answer, object)?,
        cells,
        settled,
        sections: answer.number_in(object, "sections")?,
    })
}

fn worker_status(answer: &Answer, object: &Value) -> Result<WorkerStatus, Error> {
    let is_there = |name: &str| object.get(name).is_some();
    let text = |name: &str| is_there(name).then(|| answer.text_in(object, name)).transpose();
    Ok(WorkerStatus {
        attached: answer.bool_in(object, "attached")?,
        stance: answer.stance_in(object)?,
        number: answer.number_in(object, "number")?,
        lock: text("lock")?,
        blocked_by: is_there("blocked_by").then(|| answer.worker_in(object, "blocked_by")).transpose()?,
        label: text("as")?,
        seconds: is_there("seconds").then(|| answer.number_in(object, "seconds")).transpose()?,
    })
}

/// An administrator of a server of spaces. Each call is one connection, made once; `names` makes one for each 1,000
/// names.
///
/// If the answer of `create` or `drop_space` was lost, the call ends with [`Error::Unreachable`], and the same one may
/// be made again: a second `create` with the same arguments succeeds, and a second `drop_space` is refused 23.
#[derive(Debug)]
pub struct Spaces {
    caller: Caller,
}

impl Spaces {
    /// At a server with keys `create` and `drop_space` need a key that may create. The space of the options is not
    /// used.
    ///
    /// # Errors
    /// [`Error::Invalid`] if there is no address.
    pub fn new<A: Into<Address>>(addresses: impl IntoIterator<Item = A>, options: Options) -> Result<Spaces, Error> {
        Ok(Spaces { caller: Caller::new(addresses, options.without_space())? })
    }

    /// Creates a space with these locks, this number of workers, and this number of cells of each lock.
    ///
    /// # Errors
    /// `Refused`: 5 for a name or a size outside of the limits, 24 if a space of this name has other workers, cells or
    /// locks, 20 if the server had no memory or no disk for it, and 25 if its key may not create it.
    pub fn create(&mut self, space: &str, locks: &[&str], workers: u32, cells: u32) -> Result<(), Error> {
        let locks = Value::List(locks.iter().map(|it| Value::from(*it)).collect());
        let members = vec![
            ("do", "create".into()),
            ("space", space.into()),
            ("locks", locks),
            ("workers", u64::from(workers).into()),
            ("cells", u64::from(cells).into()),
        ];
        self.caller.ask(&object(members), true).map(|_| ())
    }

    /// The names of all spaces in order, or, if `after` is given, of those after it.
    ///
    /// # Errors
    /// `Refused`, 25, without a key at a server with keys; `Unreachable` and `Protocol`.
    pub fn names(&mut self, after: Option<&str>) -> Result<Vec<String>, Error> {
        let (mut found, mut after): (Vec<String>, _) = (Vec::new(), after.map(str::to_string));
        loop {
            let mut members = vec![("do", Value::from("spaces"))];
            members.extend(after.iter().map(|it| ("after", Value::from(it.as_str()))));
            let answer = self.caller.ask(&object(members), true)?;
            let (page, is_more) = page_of(&answer, after.as_deref().unwrap_or(""))?;
            found.extend(page);
            if !is_more {
                return Ok(found);
            }
            after = found.last().cloned();
        }
    }

    /// Removes a space and all that it has.
    ///
    /// # Errors
    /// `Refused`: 23 if no space has this name, 9 if a session uses it or a job is pending in it, 25 if the key may not
    /// drop it.
    pub fn drop_space(&mut self, space: &str) -> Result<(), Error> {
        self.caller.ask(&object(vec![("do", "drop".into()), ("space", space.into())]), true).map(|_| ())
    }
}

/// The names of an answer to `spaces`: in order, each after `after`, and whether there are more.
fn page_of(answer: &Answer, after: &str) -> Result<(Vec<String>, bool), Error> {
    let found = answer.list_in(&answer.value, "spaces")?.iter().map(|it| it.as_text().map(str::to_string));
    let found = found.collect::<Option<Vec<String>>>().ok_or_else(|| answer.broken("`spaces` are no names"))?;
    let is_more = answer.bool_in(&answer.value, "more")?;
    let is_in_order = found.windows(2).all(|it| it[0] < it[1]) && found.first().map_or(true, |it| it.as_str() > after);
    if !is_in_order || (is_more && found.is_empty()) {
        return Err(answer.broken("the names are not in order"));
    }
    Ok((found, is_more))
}

/// Asks a server, once for each call.
#[derive(Debug)]
struct Caller {
    addresses: Addresses,
    options: Options,
}

impl Caller {
    fn new<A: Into<Address>>(addresses: impl IntoIterator<Item = A>, options: Options) -> Result<Caller, Error> {
        options.must_be_good()?;
        Ok(Caller { addresses: Addresses::new(addresses.into_iter().map(Into::into).collect())?, options })
    }

    /// The answer to an order. With `pings` an order goes before it: a full server refuses the first line by the same
    /// number by which it refuses `drop` of a space that is used.
    fn ask(&mut self, order: &Value, pings: bool) -> Result<Answer, Error> {
        let mut orders = self.options.first_orders()?;
        orders.extend(pings.then(|| object(vec![("do", "ping".into())])));
        let ends = Instant::now() + self.options.timeout;
        let name = order.get("do").and_then(Value::as_text).unwrap_or_default();
        match self.begun(&orders, ends).and_then(|mut it| it.ask(order, left(ends))) {
            Ok(answer) => answer.must_be_of(name).map(|()| answer),
            Err(Failure::Stop(error)) => Err(error),
            Err(Failure::Lost(why) | Failure::Hopeless(why)) => {
                let reason = format!("{}: {why}", self.addresses.current());
                self.addresses.go_on();
                Err(Error::Unreachable { reason, number: None })
            }
        }
    }

    /// A session that has begun, at the first address that has one.
    fn begun(&mut self, orders: &[Value], ends: Instant) -> Result<Connection, Failure> {
        for _ in 1..self.addresses.count() {
            match self.begun_here(orders, ends) {
                Err(Failure::Lost(_) | Failure::Hopeless(_)) => self.addresses.go_on(),
                told => return told,
            }
        }
        self.begun_here(orders, ends)
    }

    fn begun_here(&self, orders: &[Value], ends: Instant) -> Result<Connection, Failure> {
        let time = self.addresses.share(left(ends));
        let mut connection = self.addresses.current().connect(time)?;
        begin(&mut connection, orders, time)?;
        Ok(connection)
    }
}

fn left(ends: Instant) -> Duration {
    ends.saturating_duration_since(Instant::now()).max(Duration::from_millis(1))
}
