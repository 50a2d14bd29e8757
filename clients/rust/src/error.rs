//! What a call may end with.

use std::fmt;
use std::io;

use crate::answers::{Receipt, Stance};

/// What a call may end with. The texts say what to do.
///
/// After any of them the next call asks for the worker's stance again.
#[derive(Debug)]
#[non_exhaustive]
pub enum Error {
    /// The server refuses the order, and would refuse it again. `code` is the refusal's number, and `name` its name;
    /// `expected` is the number that a wrong number should be. `code` is `None` if the job's number was given up, so
    /// that it never counts. A refused job has used no number.
    Refused { code: Option<u64>, name: String, expected: Option<u64> },
    /// The job of the given number counted already, so nothing was entered: its work was done before the commit.
    Done(Receipt),
    /// The worker has a job that this object did not hand over, and this call did not go on with. Nothing was done.
    Pending { lock: String, number: u64, stance: Stance },
    /// Others had the lock for all of `wait`. The job of this `number` stays pending: make the same call again, or call
    /// `finish` or `withdraw`. `lock` is `None` after `finish`, if the lock is not known.
    Blocked { lock: Option<String>, number: u64 },
    /// Another client used the worker, or the server lost its state, while this call made the job of `number`. Whether
    /// that job counted is not known. `found` is the number at which the worker stands; `None` if another session has
    /// attached it since this call was inside, or the answer to its own attach was lost. `receipt` is the receipt of
    /// the other client's job of the same number, if that showed it.
    Overtaken { number: u64, found: Option<u64>, receipt: Option<Receipt> },
    /// No session could be had for all of `connect_timeout`; at once if another try cannot help. `number` is that of
    /// the job that was sent in this call before: that job may have been made, so give it this number in the next call.
    Unreachable { reason: String, number: Option<u64> },
    /// What came is not an answer of this protocol: another service may have the address. `line` has the bytes up to
    /// the error.
    Protocol { line: Vec<u8>, reason: String },
    /// The file with the secret cannot be read.
    KeyFile(io::Error),
    /// An argument is invalid, as a label of more than 64 bytes.
    Invalid(&'static str),
}

impl Error {
    /// The refusal's number, if the server refuses the order.
    pub fn code(&self) -> Option<u64> {
        match self {
            Error::Refused { code, .. } => *code,
            _ => None,
        }
    }
}

impl std::error::Error for Error {
    fn source(&self) -> Option<&(dyn std::error::Error + 'static)> {
        match self {
            Error::KeyFile(error) => Some(error),
            _ => None,
        }
    }
}

impl fmt::Display for Error {
    fn fmt(&self, out: &mut fmt::Formatter<'_>) -> fmt::Result {
        match self {
            Error::Refused { code: None, .. } => {
                out.write_str("the job's number was given up and never counts: make the job under the next number")
            }
            Error::Refused { code: Some(code), name, expected } => {
                write!(out, "the server refuses: {name} ({code}")?;
                if let Some(expected) = expected {
                    write!(out, ", expected {expected}")?;
                }
                write!(out, "); `rme explain {name}` says what to do")
            }
            Error::Done(receipt) => write!(out, "job {} counted already: go on with the next", receipt.number),
            Error::Pending { lock, number, stance: Stance::Held } => write!(
                out,
                "job {number} of lock {lock} is pending, inside its lock: do its own work again, which may be half done, \
                 and call finish; or call enter with its lock and script"
            ),
            Error::Pending { lock, number, .. } => write!(
                out,
                "job {number} of lock {lock} is pending and waits: call finish to make it, withdraw to give it up, or enter \
                 with its lock and script"
            ),
            Error::Blocked { number, .. } => write!(
                out,
                "others have the lock; job {number} stays pending: make the same call again, call finish, or withdraw"
            ),
            Error::Overtaken { number, found: None, .. } => write!(
                out,
                "this call was inside with job {number}, its connection broke, and another session attached the worker before \
                 it came back; or the answer to its own coming back was lost. Find out whether the job counted"
            ),
            Error::Overtaken { number, found: Some(found), .. } => write!(
                out,
                "this call was at job {number}, and the worker stands at job {found}: another client uses the worker, or the \
                 server lost its state. Find out which, and whether the job counted"
            ),
            Error::Unreachable { reason, number: None } => out.write_str(reason),
            Error::Unreachable { reason, number: Some(number) } => {
                write!(out, "{reason}; job {number} may have been made: make the same call with this number")
            }
            Error::Protocol { line, reason } => {
                let shown = String::from_utf8_lossy(&line[..line.len().min(200)]);
                write!(out, "no answer of an rme server, {reason}: {shown:?}. See which service listens at this address")
            }
            Error::KeyFile(error) => write!(out, "the file with the secret cannot be read: {error}"),
            Error::Invalid(what) => out.write_str(what),
        }
    }
}

/// How an order may fail: there is no connection or it is gone, for now or for good, or the call ends.
#[derive(Debug)]
pub(crate) enum Failure {
    /// It is not known whether the last order was obeyed. Another try may help.
    Lost(String),
    /// Another try to the same address does not help.
    Hopeless(String),
    /// This is what the call ends with.
    Stop(Error),
}

impl From<Error> for Failure {
    fn from(error: Error) -> Failure {
        Failure::Stop(error)
    }
}
