//! A worker of `rme serve`, over as many connections as it takes.
//!
//! A worker's jobs have the numbers 1, 2, 3 and so on. A job counts once because its number is chosen once, and the
//! same line is sent until its receipt comes: the server posts a number that is new, goes on with one that is pending,
//! and answers the receipt again of the one that was done last. A number is chosen by what was answered in the session
//! in which it is sent.

use std::os::unix::io::BorrowedFd;
use std::thread::sleep;
use std::time::{Duration, Instant};

use crate::address::{Address, Addresses};
use crate::answers::{PendingJob, Receipt, Stance};
use crate::error::{Error, Failure};
use crate::job::{InHand, Job};
use crate::json::{object, Value};
use crate::options::{begin, codes, Options};
use crate::session::Session;
use crate::steps::Steps;

const SHORT: Duration = Duration::from_millis(1);
const LONG: Duration = Duration::from_secs(1);

/// One worker of a server. One client at a time uses a worker.
///
/// A connection that breaks is made again, and a server that is not there is waited for. When this is dropped its
/// session ends: the worker falls, and its pending job waits for the next session.
#[derive(Debug)]
pub struct Worker {
    worker: u32,
    addresses: Addresses,
    options: Options,
    session: Option<Session>,
    /// The job that a call of this object handed over and left pending, because others had its lock.
    own: Option<u64>,
}

impl Worker {
    /// A client of this worker, at the first of these addresses that has a server; the others are tried if that is
    /// gone. It connects at the first call.
    ///
    /// # Errors
    /// [`Error::Invalid`] if there is no address, or an option is invalid.
    pub fn new<A: Into<Address>>(
        addresses: impl IntoIterator<Item = A>,
        worker: u32,
        options: Options,
    ) -> Result<Worker, Error> {
        options.must_be_good()?;
        let addresses = Addresses::new(addresses.into_iter().map(Into::into).collect())?;
        Ok(Worker { worker, addresses, options, session: None, own: None })
    }

    /// Makes the job, and answers its receipt.
    ///
    /// # Errors
    /// Without a number [`Error::Pending`] if the worker has a job that is not over, and that this object did not
    /// leave; [`Error::Blocked`] if others have the lock for all of the job's time: it stays pending, and the same call
    /// goes on with it. All others of [`Error`] but `Done`.
    pub fn submit(&mut self, job: Job<'_>) -> Result<Receipt, Error> {
        let (script, own) = (job.script_value(), self.own);
        self.insist(&mut InHand::of(&job), |steps| {
            let session = &mut *steps.session;
            let is_others = session.stance != Stance::Ready && Some(session.number) != own;
            if steps.job.sent.is_none() && steps.job.given.is_none() && is_others {
                let pending = session.must_have_pending()?;
                return Err(
                    Error::Pending { lock: pending.lock, number: session.number, stance: session.stance }.into()
                );
            }
            steps.submit(&script)
        })
    }

    /// Enters the lock with this job. Until [`Inside::commit`] has answered no other worker is inside the lock, even if
    /// the connection breaks or this program is killed: its worker is down then, and still the owner.
    ///
    /// Without a number, a job of this lock that is pending is the one that is entered, and `again` is true: own work
    /// inside may have been begun before, so it must bear that.
    ///
    /// # Errors
    /// [`Error::Pending`] if the pending job is of another lock, or cannot be entered by this script; [`Error::Done`]
    /// if the job of the given number counted already; [`Error::Blocked`] as of [`Worker::submit`]. All others of
    /// [`Error`].
    pub fn enter(&mut self, job: Job<'_>) -> Result<Inside<'_>, Error> {
        let (script, mut in_hand) = (job.script_value(), InHand::of(&job));
        let (number, (section, life)) = self.insist(&mut in_hand, |steps| steps.enter(&script))?;
        in_hand.after = Some(life);
        Ok(Inside { worker: self, number, section, life, job: in_hand, is_over: false })
    }

    /// Makes the pending job, without work of one's own, and answers its receipt. If none is pending, the receipt of the last
    /// job; `None` if that was given up, or if there was none.
    ///
    /// # Errors
    /// [`Error::Blocked`] if others have the lock for all of `wait`; all others of [`Error`] but `Done` and `Pending`.
    pub fn finish(&mut self, wait: Option<Duration>) -> Result<Option<Receipt>, Error> {
        self.insist(&mut InHand::none(wait), |steps| steps.finish())
    }

    /// Gives up the pending job: its number never counts then, and `None` is answered. A job that is inside its lock
    /// cannot be given up: it is finished, and its receipt is answered. If none is pending, the answer is that of
    /// `finish`.
    ///
    /// # Errors
    /// As of [`Worker::finish`].
    pub fn withdraw(&mut self) -> Result<Option<Receipt>, Error> {
        self.insist(&mut InHand::none(None), |steps| steps.withdraw())
    }

    /// The number of the job that is pending, or of the next one if none is pending.
    ///
    /// # Errors
    /// `Refused`, `Unreachable` and `Protocol` of [`Error`].
    pub fn next_number(&mut self) -> Result<u64, Error> {
        self.insist(&mut InHand::none(None), |steps| {
            Ok(steps.session.number.saturating_add(u64::from(steps.session.stance == Stance::Ready)))
        })
    }

    /// The receipt of the worker's last job; `None` if it was given up, or if there was none.
    ///
    /// # Errors
    /// `Refused`, 9, while a job is pending; else as of [`Worker::next_number`].
    pub fn last(&mut self) -> Result<Option<Receipt>, Error> {
        self.insist(&mut InHand::none(None), |steps| steps.session.last())
    }

    /// The worker's pending job; `None` if none is pending.
    ///
    /// # Errors
    /// As of [`Worker::next_number`].
    pub fn pending(&mut self) -> Result<Option<PendingJob>, Error> {
        self.insist(&mut InHand::none(None), |steps| steps.session.pending())
    }

    /// The session's connection, for a child process: a child that inherits it keeps the session, and so the worker,
    /// until it ends too. The child must neither read nor write it. The descriptor is closed when a program is started,
    /// unless its flag `FD_CLOEXEC` is cleared before.
    pub fn connection(&self) -> Option<BorrowedFd<'_>> {
        self.session.as_ref().map(|it| it.connection().descriptor())
    }

    /// Ends the session: the worker falls, and its pending job stays pending until it is attached again. The next call
    /// makes another session.
    pub fn close(&mut self) {
        self.session = None;
    }

    /// The result of the attempt, which is made in one session after another until it has a result.
    fn insist<T>(
        &mut self,
        job: &mut InHand,
        mut attempt: impl FnMut(&mut Steps<'_>) -> Result<T, Failure>,
    ) -> Result<T, Error> {
        let (mut pause, mut is_first) = (SHORT, true);
        loop {
            let told = self.try_once(job, is_first, &mut attempt);
            is_first = false;
            match told {
                Ok(answer) => return Ok(answer),
                Err(Failure::Lost(_) | Failure::Hopeless(_)) => self.close(),
                Err(Failure::Stop(error)) => {
                    if !is_known(&error) {
                        self.close(); // the next call asks for the worker's stance again
                    }
                    return Err(error);
                }
            }
            sleep(pause);
            pause = LONG.min(2 * pause);
        }
    }

    fn try_once<T>(
        &mut self,
        job: &mut InHand,
        is_first: bool,
        attempt: &mut impl FnMut(&mut Steps<'_>) -> Result<T, Failure>,
    ) -> Result<T, Failure> {
        if self.session.is_none() {
            self.attach(job)?;
        } else if is_first && job.sent.is_none() {
            self.session.as_mut().map_or(Ok(()), Session::wake)?; // else its number tells what became of it
        }
        match &mut self.session {
            Some(session) => attempt(&mut Steps { session, job, own: &mut self.own, timeout: self.options.timeout }),
            None => Err(Failure::Lost("there is no session".to_string())),
        }
    }

    /// Gets a session, which must agree with what was sent in an earlier one.
    fn attach(&mut self, job: &mut InHand) -> Result<(), Failure> {
        let ends = self.options.connect_timeout.and_then(|it| Instant::now().checked_add(it));
        let mut pause = SHORT;
        let session = loop {
            let (why, is_hopeless) = match self.any_session(job.after, ends) {
                Ok(session) => break session,
                Err(Failure::Lost(why)) => (why, false),
                Err(Failure::Hopeless(why)) => (why, true),
                Err(Failure::Stop(error)) => {
                    return Err(match (error.code(), job.sent) {
                        (Some(codes::OVERTAKEN), Some(number)) => {
                            Error::Overtaken { number, found: None, receipt: None }
                        }
                        _ => error,
                    }
                    .into())
                }
            };
            let left = ends.map(|it| it.saturating_duration_since(Instant::now()));
            if is_hopeless || left == Some(Duration::ZERO) {
                let reason = format!("{}: {why}", self.addresses.current());
                return Err(Error::Unreachable { reason, number: job.sent }.into());
            }
            sleep(left.map_or(pause, |it| it.min(pause)));
            pause = LONG.min(2 * pause);
        };
        self.options.take = false;
        job.after = job.after.map(|it| it.saturating_add(1)); // this attachment
        let fits = job.must_fit(&session);
        self.session = Some(session);
        Ok(fits?)
    }

    /// A session that has the worker, at the first address that has one now.
    fn any_session(&mut self, after: Option<u64>, ends: Option<Instant>) -> Result<Session, Failure> {
        let mut failed = None;
        for _ in 0..self.addresses.count() {
            match self.new_session(after, ends) {
                Err(Failure::Stop(error)) => return Err(error.into()),
                Err(why) => {
                    if !matches!(failed, Some(Failure::Lost(_))) {
                        failed = Some(why);
                    }
                    self.addresses.go_on();
                }
                made => return made,
            }
        }
        Err(failed.unwrap_or_else(|| Failure::Hopeless("there is no address".to_string())))
    }

    fn new_session(&self, after: Option<u64>, ends: Option<Instant>) -> Result<Session, Failure> {
        let orders = self.options.first_orders()?;
        let mut connection = self.addresses.current().connect(self.limit(ends))?;
        begin(&mut connection, &orders, self.limit(ends))?;
        let (mut session, began) = (Session::new(connection, self.worker, self.options.timeout), Instant::now());
        let order = self.attach_order(after);
        // Another client has the worker, or the server has not seen the end of its last session yet.
        while !session.attach(&order, self.limit(ends))? {
            if began.elapsed() >= LONG || ends.map_or(false, |it| Instant::now() >= it) {
                return Err(Failure::Lost(format!("another client has worker {}", self.worker)));
            }
            sleep(10 * SHORT);
        }
        Ok(session)
    }

    fn attach_order(&self, after: Option<u64>) -> Value {
        let mut members = vec![("do", "attach".into()), ("worker", u64::from(self.worker).into())];
        if self.options.take {
            members.push(("take", Value::Bool(true)));
        }
        members.extend(after.map(|it| ("after", it.into())));
        members.extend(self.options.label.as_deref().map(|it| ("as", it.into())));
        object(members)
    }

    /// How long to wait for an answer, if there should be a session at the time `ends`.
    fn limit(&self, ends: Option<Instant>) -> Duration {
        let left = ends.map(|it| it.saturating_duration_since(Instant::now()).max(Duration::from_millis(500)));
        self.addresses.share(left.map_or(self.options.timeout, |it| it.min(self.options.timeout)))
    }
}

/// Whether the session's last answer still holds after this error.
fn is_known(error: &Error) -> bool {
    matches!(
        error,
        Error::Refused { .. }
            | Error::Done(_)
            | Error::Pending { .. }
            | Error::Blocked { .. }
            | Error::Overtaken { .. }
    )
}

/// A worker that is inside its lock. Dropped without [`Inside::commit`], its session ends and nothing is committed: the
/// worker stays inside, and the next [`Worker::enter`] goes on with its job, of this program or of another.
#[derive(Debug)]
#[must_use = "the worker stays inside its lock until the job is committed"]
pub struct Inside<'a> {
    worker: &'a mut Worker,
    number: u64,
    section: u64,
    life: u64,
    job: InHand,
    is_over: bool,
}

impl Inside<'_> {
    /// The job's number.
    pub fn number(&self) -> u64 {
        self.number
    }

    /// Whether the job was pending before: own work inside may have been begun before.
    pub fn again(&self) -> bool {
        self.job.again
    }

    /// The fencing token, with `life`: how many sections of the lock were finished before, which is the place of the
    /// job's receipt. If a resource outside keeps the greatest pair, and refuses a lower one, it refuses the writes of
    /// a client that was cut off while others went on.
    pub fn section(&self) -> u64 {
        self.section
    }

    /// How often the worker was restarted, its last attachment included.
    pub fn life(&self) -> u64 {
        self.life
    }

    /// The session's connection, as [`Worker::connection`].
    pub fn connection(&self) -> Option<BorrowedFd<'_>> {
        self.worker.connection()
    }

    /// Commits the job, and answers its receipt. A connection that broke meanwhile is made again, if nobody else has
    /// attached the worker since.
    ///
    /// # Errors
    /// [`Error::Overtaken`] with `found` `None` if another client has, or if the answer to this call's own attach was
    /// lost; [`Error::Unreachable`] with the job's number: whether it counted is told by `enter` with this number.
    pub fn commit(mut self) -> Result<Receipt, Error> {
        self.is_over = true;
        self.worker.insist(&mut self.job, |steps| steps.commit())
    }
}

impl Drop for Inside<'_> {
    fn drop(&mut self) {
        if !self.is_over {
            self.worker.close();
        }
    }
}
