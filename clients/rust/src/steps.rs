//! The steps of a call for its job in one session.

use std::thread::sleep;
use std::time::Duration;

use crate::answers::{Receipt, Stance};
use crate::error::{Error, Failure};
use crate::job::InHand;
use crate::json::Value;
use crate::options::codes;
use crate::session::{Order, Session};

/// How long the server waits for a lock in one order.
const WAIT: Duration = Duration::from_secs(10);

/// A session, and the job that a call makes.
pub(crate) struct Steps<'a> {
    pub(crate) session: &'a mut Session,
    pub(crate) job: &'a mut InHand,
    pub(crate) own: &'a mut Option<u64>,
    pub(crate) timeout: Duration,
}

impl Steps<'_> {
    /// Has the order done until it does not wait any more: its receipt, or `None` if the worker is inside. If the
    /// number that was chosen for it was given up meanwhile, it is handed over under the next one.
    fn work(&mut self, mut order: Order) -> Result<Option<Receipt>, Failure> {
        loop {
            let wait = self.job.milliseconds(WAIT.min(self.timeout / 2));
            match self.session.hand(&order, Some(wait)) {
                Ok(None) => {}
                Err(Failure::Stop(error)) => {
                    self.go_on_after(error, &mut order)?;
                    continue;
                }
                told => return told,
            }
            self.job.is_begun = true;
            if self.session.stance == Stance::Held {
                return Ok(None);
            }
            if self.job.is_over() {
                *self.own = Some(self.session.number);
                let lock = self.job.lock.clone().or_else(|| self.session.lock.clone());
                return Err(Error::Blocked { lock, number: self.session.number }.into());
            }
            sleep(Duration::from_millis(1));
        }
    }

    /// The order under another number, if its own was given up since an earlier session; else the error.
    fn go_on_after(&mut self, error: Error, order: &mut Order) -> Result<(), Failure> {
        let (session, job) = (&*self.session, &mut *self.job);
        match (&error, &mut order.job) {
            (Error::Refused { code: None, .. }, Some((_, number, _))) if job.given.is_none() && job.is_resent => {
                *number = job.start_anew(session);
                Ok(())
            }
            (Error::Refused { code: Some(codes::DIFFERS), .. }, _) if job.is_resent && !job.again => {
                Err(Error::Overtaken { number: session.number, found: Some(session.number), receipt: None }.into())
            }
            _ => Err(error.into()),
        }
    }

    /// The same of an order that goes on to the receipt.
    fn receipt(&mut self, order: Order) -> Result<Receipt, Failure> {
        self.work(order)?.ok_or_else(|| Failure::Lost("the worker is inside".to_string()))
    }

    fn job_order(&mut self, name: &'static str, script: &Value) -> Order {
        let number = self.job.start(self.session);
        let lock = self.job.lock.clone().unwrap_or_default();
        Order { name, job: Some((lock, number, script.clone())) }
    }

    pub(crate) fn submit(&mut self, script: &Value) -> Result<Receipt, Failure> {
        let order = self.job_order("submit", script);
        self.receipt(order)
    }

    /// The number of the job once the worker is inside with it, and its section and life.
    pub(crate) fn enter(&mut self, script: &Value) -> Result<(u64, (u64, u64)), Failure> {
        let order = self.job_order("enter", script);
        let receipt = match self.work(order) {
            Err(Failure::Stop(error)) if error.code() == Some(codes::DIFFERS) && self.job.given.is_none() => {
                self.must_be_inside()?;
                None
            }
            told => told?,
        };
        let number = self.job.start(self.session); // the next one if that one was given up meanwhile
        match (receipt, self.job.given) {
            (Some(receipt), Some(_)) => Err(Error::Done(receipt).into()),
            // Another client made it, and nothing was done inside here.
            (receipt @ Some(_), None) => Err(Error::Overtaken { number, found: Some(number), receipt }.into()),
            (None, _) => {
                let token = self.session.token.ok_or_else(|| Failure::Lost("the worker is not inside".to_string()))?;
                Ok((number, token))
            }
        }
    }

    /// Returns if the pending job, which has another script or lock than this one, is inside this lock. It is entered
    /// again by its own script, which tells the section.
    fn must_be_inside(&mut self) -> Result<(), Failure> {
        let pending = self.session.must_have_pending()?;
        let stance = self.session.stance;
        if stance != Stance::Held || Some(&pending.lock) != self.job.lock.as_ref() {
            return Err(Error::Pending { lock: pending.lock, number: pending.number, stance }.into());
        }
        self.job.is_begun = true;
        let script = Value::List(pending.script.iter().map(|it| it.value()).collect());
        self.work(Order { name: "enter", job: Some((pending.lock, pending.number, script)) })?;
        Ok(())
    }

    pub(crate) fn finish(&mut self) -> Result<Option<Receipt>, Failure> {
        if self.session.stance == Stance::Ready {
            return self.session.last();
        }
        self.job.start(self.session);
        self.receipt(Order::new("resume")).map(Some)
    }

    pub(crate) fn withdraw(&mut self) -> Result<Option<Receipt>, Failure> {
        if self.session.stance == Stance::Climb {
            self.job.start(self.session);
            match self.session.withdraw() {
                Err(Failure::Stop(error)) if error.code() == Some(codes::NOT_WAITING) => {
                    self.session.stance = Stance::Held
                }
                told => return told.map(|()| None),
            }
        }
        self.finish()
    }

    /// The receipt of the job that the worker is inside with, or was when the commit's answer was lost.
    pub(crate) fn commit(&mut self) -> Result<Receipt, Failure> {
        let receipt = match self.session.stance {
            Stance::Held => self.session.hand(&Order::new("commit"), None)?,
            Stance::Ready => self.session.last()?,
            Stance::Climb => None,
        };
        let number = self.session.number;
        match receipt {
            Some(receipt) if Some(&receipt.lock) == self.job.lock.as_ref() => Ok(receipt),
            receipt => Err(Error::Overtaken { number, found: Some(number), receipt }.into()),
        }
    }
}
