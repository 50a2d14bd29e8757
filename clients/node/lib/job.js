"use strict";

const { Overtaken } = require("./errors.js");
const { MOST } = require("./json.js");

// Which operands of an operation are cells; the others are values.
const OPERANDS = { get: "c", set: "cv", add: "cv", copy: "cc", swap: "cc" };

/** The script as it is sent. `TypeError` if an item is not an operation. */
function scriptOf(given) {
  return Array.from(given, (op) => {
    const [name, ...operands] = op;
    if (!Object.hasOwn(OPERANDS, name) || operands.length !== OPERANDS[name].length) {
      throw new TypeError(`${String(name)} of ${operands.length} operands is not an operation`);
    }
    return [name, ...operands.map(whole)];
  });
}

/** A whole number of 64 bits, from a BigInt or a number that is exact. */
function whole(value) {
  const found = typeof value === "bigint" || Number.isSafeInteger(value) ? BigInt(value) : -1n;
  if (found < 0n || found > MOST) throw new TypeError(`${String(value)} is no whole number of 64 bits, or is not exact`);
  return found;
}

/** The job that a call is about: how long it waits for the lock, and what the server is known to have received of it. */
class Job {
  constructor(lock, { number, wait } = {}) {
    if (wait !== undefined && !(wait >= 0)) throw new TypeError("`wait` is a number of milliseconds, or undefined");
    this.lock = lock;
    this.given = number === undefined ? undefined : whole(number);
    this.ends = wait === undefined ? Infinity : performance.now() + wait;
    this.sent = null; // the number under which its line was sent, or may have been
    this.isBegun = false; // whether the server is known to have received it
    this.again = false; // whether it was pending before this call
    this.isResent = false; // whether another session began after it was first sent
    this.after = undefined; // inside: the worker's life, after which nobody else may have attached it
  }

  /** The number under which it is sent: the number that was given, or else, in the session in which it is first sent, the
   * number of the pending job, or else the next number. */
  start(session) {
    if (this.sent === null) {
      const isPending = session.stance !== "ready";
      this.again = isPending && (this.given === undefined || this.given === session.number);
      this.isBegun = this.again;
      this.sent = this.given ?? session.number + (isPending ? 0n : 1n);
    }
    return this.sent;
  }

  /** The next number, under which it is sent after its own number was given up, so that nothing of it was done. */
  startAnew(session) {
    this.again = false;
    this.isBegun = false;
    this.sent = session.number + 1n;
    return this.sent;
  }

  /** How many milliseconds the server should wait for the lock in the next order. */
  milliseconds(most) {
    return Math.max(0, Math.floor(Math.min(most, this.ends - performance.now())));
  }

  isOver() {
    return performance.now() >= this.ends;
  }

  /** `Overtaken` if what was sent before cannot have led to where this later session found the worker. */
  mustFit(session) {
    if (this.sent === null) return;
    this.isResent = true;
    const isBefore = !this.isBegun && session.stance === "ready" && session.number + 1n === this.sent;
    if (session.number !== this.sent && !isBefore) throw new Overtaken(this.sent, session.number);
  }
}

module.exports = { Job, scriptOf };
