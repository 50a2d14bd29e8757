//! Connections to a server, over each of which orders and answers go one by one.

use std::io::{self, ErrorKind, Read, Write};
use std::net::TcpStream;
use std::os::unix::io::{AsFd, BorrowedFd};
use std::os::unix::net::UnixStream;
use std::time::{Duration, Instant};

use crate::answers::{broken, Answer};
use crate::error::Failure;
use crate::json::Value;

/// The most bytes of an answer. The longest that a server has, 1,000 names of spaces of 64 bytes each, takes 67 KB.
const LIMIT: usize = 262_144;

#[derive(Debug)]
pub(crate) enum Stream {
    Tcp(TcpStream),
    Unix(UnixStream),
}

impl Stream {
    fn reader(&mut self) -> &mut dyn Read {
        match self {
            Stream::Tcp(peer) => peer,
            Stream::Unix(peer) => peer,
        }
    }

    fn writer(&mut self) -> &mut dyn Write {
        match self {
            Stream::Tcp(peer) => peer,
            Stream::Unix(peer) => peer,
        }
    }

    fn set_read_timeout(&self, time: Duration) -> io::Result<()> {
        match self {
            Stream::Tcp(peer) => peer.set_read_timeout(Some(time)),
            Stream::Unix(peer) => peer.set_read_timeout(Some(time)),
        }
    }

    fn set_write_timeout(&self, time: Duration) -> io::Result<()> {
        match self {
            Stream::Tcp(peer) => peer.set_write_timeout(Some(time)),
            Stream::Unix(peer) => peer.set_write_timeout(Some(time)),
        }
    }

    fn set_nonblocking(&self, is_set: bool) -> io::Result<()> {
        match self {
            Stream::Tcp(peer) => peer.set_nonblocking(is_set),
            Stream::Unix(peer) => peer.set_nonblocking(is_set),
        }
    }
}

/// A connection on which one order at a time is answered. It ends if this is dropped and no other process has it.
#[derive(Debug)]
pub(crate) struct Connection {
    stream: Stream,
}

impl Connection {
    pub(crate) fn new(stream: Stream) -> Connection {
        Connection { stream }
    }

    /// Sends the order, and answers the answer. After a failure the connection is of no use.
    pub(crate) fn ask(&mut self, order: &Value, timeout: Duration) -> Result<Answer, Failure> {
        let ends = Instant::now() + timeout;
        self.exchange(format!("{order}\n").as_bytes(), ends).map_err(|failure| match failure {
            Trouble::Io(error) if matches!(error.kind(), ErrorKind::WouldBlock | ErrorKind::TimedOut) => {
                Failure::Lost(format!("no answer within {timeout:?}"))
            }
            Trouble::Io(error) => Failure::Lost(format!("the connection broke: {error}")),
            Trouble::Failure(failure) => failure,
        })
    }

    fn exchange(&mut self, line: &[u8], ends: Instant) -> Result<Answer, Trouble> {
        self.stream.set_write_timeout(left_until(ends)?)?;
        self.stream.writer().write_all(line)?;
        let (mut held, mut piece) = (Vec::new(), [0; 8192]);
        while held.last() != Some(&b'\n') {
            self.stream.set_read_timeout(left_until(ends)?)?;
            let count = match self.stream.reader().read(&mut piece) {
                Err(error) if error.kind() == ErrorKind::Interrupted => continue,
                read => read?,
            };
            join(&mut held, &piece[..count])?;
        }
        Ok(Answer::new(held).map_err(Failure::from)?)
    }

    /// Whether nothing has come since the last answer: neither the end of the connection, as far as this side has
    /// heard, nor bytes that nobody asked for. It does not wait. If something has come, the connection is of no use any
    /// more.
    pub(crate) fn is_quiet(&mut self) -> bool {
        if self.stream.set_nonblocking(true).is_err() {
            return false;
        }
        let heard = self.stream.reader().read(&mut [0; 1]);
        let is_quiet = matches!(heard, Err(ref error) if error.kind() == ErrorKind::WouldBlock);
        self.stream.set_nonblocking(false).is_ok() && is_quiet
    }

    pub(crate) fn descriptor(&self) -> BorrowedFd<'_> {
        match &self.stream {
            Stream::Tcp(peer) => peer.as_fd(),
            Stream::Unix(peer) => peer.as_fd(),
        }
    }
}

enum Trouble {
    Io(io::Error),
    Failure(Failure),
}

impl From<io::Error> for Trouble {
    fn from(error: io::Error) -> Trouble {
        Trouble::Io(error)
    }
}

impl From<Failure> for Trouble {
    fn from(failure: Failure) -> Trouble {
        Trouble::Failure(failure)
    }
}

fn left_until(ends: Instant) -> io::Result<Duration> {
    match ends.checked_duration_since(Instant::now()) {
        Some(left) if left > Duration::ZERO => Ok(left),
        _ => Err(ErrorKind::TimedOut.into()),
    }
}

/// Appends a piece to the received part of an answer's line.
fn join(held: &mut Vec<u8>, piece: &[u8]) -> Result<(), Failure> {
    if piece.is_empty() {
        return Err(Failure::Lost("the server closed the connection".to_string()));
    }
    held.extend_from_slice(piece);
    let wrong = if held.first() != Some(&b'{') {
        "it begins no object"
    } else if piece[..piece.len() - 1].contains(&b'\n') {
        "more than one line answers one order"
    } else if held.len() > LIMIT {
        "it is too long"
    } else {
        return Ok(());
    };
    Err(broken(held, wrong).into())
}
