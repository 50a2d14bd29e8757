//! Addresses of servers, and connections to them.

use std::fmt;
use std::fs;
use std::io::{self, ErrorKind};
use std::net::{TcpStream, ToSocketAddrs};
use std::os::unix::fs::FileTypeExt;
use std::os::unix::net::UnixStream;
use std::path::{Path, PathBuf};
use std::time::{Duration, Instant};

use crate::connection::{Connection, Stream};
use crate::error::{Error, Failure};

/// Where a server listens.
#[derive(Clone, Debug, PartialEq, Eq)]
pub enum Address {
    /// A host and a port.
    Tcp(String, u16),
    /// The path of a Unix socket.
    Unix(PathBuf),
}

impl From<(&str, u16)> for Address {
    fn from((host, port): (&str, u16)) -> Address {
        Address::Tcp(host.to_string(), port)
    }
}

impl From<&Path> for Address {
    fn from(path: &Path) -> Address {
        Address::Unix(path.to_path_buf())
    }
}

impl From<PathBuf> for Address {
    fn from(path: PathBuf) -> Address {
        Address::Unix(path)
    }
}

impl fmt::Display for Address {
    fn fmt(&self, out: &mut fmt::Formatter<'_>) -> fmt::Result {
        match self {
            Address::Tcp(host, port) => write!(out, "{host}:{port}"),
            Address::Unix(path) => write!(out, "{}", path.display()),
        }
    }
}

impl Address {
    /// A connection within this time.
    pub(crate) fn connect(&self, timeout: Duration) -> Result<Connection, Failure> {
        let stream = match self {
            Address::Tcp(host, port) => tcp(host, *port, timeout)?,
            Address::Unix(path) => unix(path)?,
        };
        Ok(Connection::new(stream))
    }
}

fn tcp(host: &str, port: u16, timeout: Duration) -> Result<Stream, Failure> {
    let found = (host, port).to_socket_addrs().map_err(|error| {
        let text = error.to_string();
        if text.contains("Temporary failure") {
            Failure::Lost(text)
        } else {
            Failure::Hopeless(text)
        }
    })?;
    let ends = Instant::now() + timeout;
    let mut failed = Failure::Hopeless("the name has no address".to_string());
    for place in found {
        let left = ends.saturating_duration_since(Instant::now()).max(Duration::from_millis(1));
        match TcpStream::connect_timeout(&place, left).and_then(must_be_anothers) {
            Ok(peer) => return Ok(Stream::Tcp(peer)),
            Err(error) => failed = failure_of(&error),
        }
    }
    Err(failed)
}

/// A port of the system's own range, on which nobody listens, may be given to the connection itself.
fn must_be_anothers(peer: TcpStream) -> io::Result<TcpStream> {
    if peer.local_addr()? == peer.peer_addr()? {
        return Err(io::Error::new(
            ErrorKind::ConnectionRefused,
            "nobody listens, and the connection came back to itself",
        ));
    }
    peer.set_nodelay(true)?;
    Ok(peer)
}

fn unix(path: &Path) -> Result<Stream, Failure> {
    match UnixStream::connect(path) {
        Ok(peer) => Ok(Stream::Unix(peer)),
        // The system says only that nobody listens.
        Err(_) if fs::metadata(path).map_or(false, |it| !it.file_type().is_socket()) => {
            Err(Failure::Hopeless("it is not a socket".to_string()))
        }
        Err(error) => Err(failure_of(&error)),
    }
}

/// EACCES, EPERM, ENOTDIR, EPROTOTYPE, ENAMETOOLONG, ELOOP, EAFNOSUPPORT: they do not end before the address or the
/// permissions are changed.
const HOPELESS: [i32; 7] = [13, 1, 20, 91, 36, 40, 97];

fn failure_of(error: &io::Error) -> Failure {
    let is_hopeless = match error.raw_os_error() {
        Some(code) => {
            error.kind() == ErrorKind::PermissionDenied || (cfg!(target_os = "linux") && HOPELESS.contains(&code))
        }
        None => error.kind() == ErrorKind::InvalidInput,
    };
    if is_hopeless {
        Failure::Hopeless(error.to_string())
    } else {
        Failure::Lost(error.to_string())
    }
}

/// The addresses of a server and of servers that may take its place. The one of the last session is tried first.
#[derive(Clone, Debug)]
pub(crate) struct Addresses {
    all: Vec<Address>,
    at: usize,
}

impl Addresses {
    pub(crate) fn new(all: Vec<Address>) -> Result<Addresses, Error> {
        if all.is_empty() {
            return Err(Error::Invalid("there is no address"));
        }
        if all.iter().any(|it| matches!(it, Address::Tcp(_, 0))) {
            return Err(Error::Invalid("0 is not a port of a server"));
        }
        Ok(Addresses { all, at: 0 })
    }

    pub(crate) fn count(&self) -> usize {
        self.all.len()
    }

    pub(crate) fn current(&self) -> &Address {
        &self.all[self.at]
    }

    /// The next try is at the next address.
    pub(crate) fn go_on(&mut self) {
        self.at = (self.at + 1) % self.all.len();
    }

    /// How long one address is tried, if all together have this time.
    pub(crate) fn share(&self, time: Duration) -> Duration {
        match u32::try_from(self.all.len()) {
            Ok(1) | Err(_) => time,
            Ok(count) => (time / count).max(Duration::from_millis(500)),
        }
    }
}
