"use strict";

// A worker of `rme serve`, over as many connections as it takes.
//
// A worker's jobs have the numbers 1, 2, 3 and so on. A job counts once because its number is chosen once, and the same line is
// sent until its receipt comes: the server posts a number that is new, goes on with one that is pending, and answers the
// receipt again of the one that was done last. A number is chosen by what was answered in the session in which it is sent.

const { debuglog } = require("node:util");
const { setTimeout: sleep } = require("node:timers/promises");
const { Addresses, connect } = require("./connection.js");
const { Blocked, Done, InUse, Lost, Overtaken, Pending, Refused, Unreachable } = require("./errors.js");
const { Job, scriptOf } = require("./job.js");
const { CODES, Options, begin } = require("./options.js");
const { Session } = require("./session.js");

// How many milliseconds the server waits for a lock in one order.
const WAIT = 10_000;

// Errors after which the session's last answer still holds.
const KNOWN = [Blocked, Done, Overtaken, Pending, Refused];

const debug = debuglog("rme-client");

class Worker {
  #addresses;
  #options;
  #worker;
  #take;
  #session = null;
  #isBusy = false;
  #own = null; // the job that a call of this object handed over and left pending, because others had its lock

  constructor(addresses, worker, options = {}) {
    if (!Number.isInteger(worker) || worker < 0) throw new TypeError(`${worker} is no worker's number`);
    this.#addresses = new Addresses(addresses);
    this.#options = new Options(options);
    this.#worker = worker;
    this.#take = this.#options.take;
  }

  async submit(lock, script, { number, wait } = {}) {
    const [job, given] = [new Job(lock, { number, wait }), scriptOf(script)];
    return this.#exclusively(() =>
      this.#insist(job, async (session) => {
        const isOthers = session.stance !== "ready" && session.number !== this.#own;
        if (job.sent === null && job.given === undefined && isOthers) {
          const pending = await session.mustHavePending();
          throw new Pending(pending.lock, session.number, session.stance);
        }
        return this.#work(session, job, { do: "submit", lock, number: job.start(session), script: given });
      }),
    );
  }

  async inside(lock, script, block, { number, wait } = {}) {
    const [job, given] = [new Job(lock, { number, wait }), scriptOf(script)];
    return this.#exclusively(async () => {
      const held = await this.#insist(job, (session) => this.#enter(session, job, given));
      job.after = held.life;
      try {
        await block(held);
      } catch (error) {
        this.#drop(); // the worker is down, and the lock is still its own
        throw error;
      }
      return this.#insist(job, (session) => this.#commit(session, job));
    });
  }

  async finish({ wait } = {}) {
    const job = new Job(undefined, { wait });
    return this.#exclusively(() => this.#insist(job, (session) => this.#finish(session, job)));
  }

  async withdraw() {
    const job = new Job();
    return this.#exclusively(() => this.#insist(job, (session) => this.#withdraw(session, job)));
  }

  async nextNumber() {
    return this.#exclusively(() => this.#insist(new Job(), async ({ number, stance }) => number + (stance === "ready" ? 1n : 0n)));
  }

  async last() {
    return this.#exclusively(() => this.#insist(new Job(), (session) => session.last()));
  }

  async pending() {
    return this.#exclusively(() => this.#insist(new Job(), (session) => session.pending()));
  }

  async close() {
    if (this.#isBusy) throw new InUse();
    this.#drop();
  }

  // Sessions

  /** The result of the call, during which no other call may be made. */
  async #exclusively(call) {
    if (this.#isBusy) throw new InUse();
    this.#isBusy = true;
    try {
      return await call();
    } finally {
      this.#isBusy = false;
    }
  }

  /** The result of the attempt, which is made in one session after another until it has a result. */
  async #insist(job, attempt) {
    let [pause, isFirst] = [1, true];
    for (;;) {
      try {
        if (this.#session === null) await this.#attach(job);
        else if (isFirst && job.sent === null) await this.#session.wake(); // else its number tells what became of it
        isFirst = false;
        return await attempt(this.#session);
      } catch (error) {
        isFirst = false;
        if (!KNOWN.some((known) => error instanceof known)) this.#drop(); // the next call asks for the stance again
        if (!(error instanceof Lost)) throw error;
        debug("worker %d at %s: %s", this.#worker, this.#addresses, error.message);
      }
      await sleep(pause);
      pause = Math.min(2 * pause, 1000);
    }
  }

  #drop() {
    this.#session?.connection.close();
    this.#session = null;
  }

  /** Gets a session, which must agree with what was sent in an earlier one. */
  async #attach(job) {
    const ends = Date.now() + (this.#options.connectTimeout ?? Infinity);
    for (let pause = 1; ; pause = Math.min(2 * pause, 1000)) {
      try {
        this.#session = await this.#anySession(job.after, ends);
        break;
      } catch (error) {
        if (error instanceof Refused && error.code === CODES.OVERTAKEN && job.sent !== null) throw new Overtaken(job.sent, null);
        if (!(error instanceof Lost)) throw error;
        if (error.isHopeless || Date.now() >= ends) throw new Unreachable(`${this.#addresses}: ${error.message}`, job.sent);
        debug("worker %d at %s: %s; trying on", this.#worker, this.#addresses, error.message);
      }
      await sleep(Math.min(pause, Math.max(0, ends - Date.now())));
    }
    this.#take = false;
    if (job.after !== undefined) job.after += 1n; // this attachment
    debug("worker %d at %s: attached, %s %d", this.#worker, this.#addresses, this.#session.stance, this.#session.number);
    job.mustFit(this.#session);
  }

  /** A session that has the worker, at the first address that has one now. */
  async #anySession(after, ends) {
    let failed = null;
    for (let left = this.#addresses.count; left > 0; left -= 1) {
      try {
        return await this.#newSession(after, ends);
      } catch (error) {
        if (!(error instanceof Lost)) throw error;
        if (failed === null || failed.isHopeless) failed = error;
        this.#addresses.goOn();
      }
    }
    throw failed;
  }

  async #newSession(after, ends) {
    const orders = await this.#options.firstOrders();
    const connection = await connect(this.#addresses.current, this.#limit(ends));
    try {
      await begin(connection, orders, this.#limit(ends));
      const session = new Session(connection, this.#worker, this.#options.timeout);
      const order = { do: "attach", worker: this.#worker, take: this.#take || undefined, after, as: this.#options.label };
      const began = Date.now();
      // Another client has the worker, or the server has not seen the end of its last session yet.
      while (!(await session.attach(order, this.#limit(ends)))) {
        if (Date.now() - began >= 1000 || Date.now() >= ends) throw new Lost(`another client has worker ${this.#worker}`);
        await sleep(10);
      }
      return session;
    } catch (error) {
      connection.close();
      throw error;
    }
  }

  /** How many milliseconds to wait for an answer, if there should be a session at the time `ends`. */
  #limit(ends) {
    return this.#addresses.share(Math.min(this.#options.timeout, Math.max(500, ends - Date.now())));
  }

  // Jobs

  /** Has the order done until it does not wait any more: its receipt, or null if the worker is inside. If the number that was
   * chosen for it was given up meanwhile, it is handed over under the next one. */
  async #work(session, job, order) {
    for (;;) {
      let receipt;
      try {
        receipt = await session.hand({ ...order, wait: job.milliseconds(Math.min(WAIT, this.#options.timeout / 2)) });
      } catch (error) {
        if (!(error instanceof Refused) || !job.isResent) throw error;
        if (error.code === null && job.given === undefined && order.number !== undefined) {
          order = { ...order, number: job.startAnew(session) };
          continue;
        }
        // It was not refused before.
        if (error.code === CODES.DIFFERS && !job.again) throw new Overtaken(session.number, session.number);
        throw error;
      }
      if (receipt !== null) return receipt;
      job.isBegun = true;
      if (session.stance === "held") return null;
      if (job.isOver()) {
        this.#own = session.number;
        throw new Blocked(job.lock ?? session.lock, session.number);
      }
      await sleep(1);
    }
  }

  async #finish(session, job) {
    if (session.stance === "ready") return session.last();
    job.start(session);
    return this.#work(session, job, { do: "resume" });
  }

  async #withdraw(session, job) {
    if (session.stance === "climb") {
      job.start(session);
      try {
        await session.withdraw();
        return null;
      } catch (error) {
        if (!(error instanceof Refused) || error.code !== CODES.NOT_WAITING) throw error;
        session.stance = "held";
      }
    }
    return this.#finish(session, job);
  }

  /** The job, once the worker is inside with it. */
  async #enter(session, job, script) {
    let receipt;
    try {
      receipt = await this.#work(session, job, { do: "enter", lock: job.lock, number: job.start(session), script });
    } catch (error) {
      if (!(error instanceof Refused) || error.code !== CODES.DIFFERS || job.given !== undefined) throw error;
      receipt = await this.#mustBeInside(session, job);
    }
    const number = job.start(session); // the next one if that one was given up meanwhile
    if (receipt === null) return Object.freeze({ number, again: job.again, ...session.token });
    if (job.given === undefined) throw new Overtaken(number, number, receipt); // its block was not run here
    throw new Done(receipt);
  }

  /** Null if the pending job, which has another script or lock than this one, is inside this lock. It is entered again by
   * its own script, which tells the section. */
  async #mustBeInside(session, job) {
    const { lock, number, script } = await session.mustHavePending();
    if (session.stance !== "held" || lock !== job.lock) throw new Pending(lock, number, session.stance);
    job.isBegun = true;
    return this.#work(session, job, { do: "enter", lock, number, script });
  }

  /** The receipt of the job that the worker is inside with, or was when the commit's answer was lost. */
  async #commit(session, job) {
    let receipt = null;
    if (session.stance === "held") receipt = await session.hand({ do: "commit" });
    else if (session.stance === "ready") receipt = await session.last();
    if (receipt?.lock !== job.lock) throw new Overtaken(session.number, session.number, receipt);
    return receipt;
  }
}

module.exports = { Worker };
