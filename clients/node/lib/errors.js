"use strict";

/** Any error of this package. Its message says what to do. */
class RmeError extends Error {
  get name() {
    return this.constructor.name;
  }
}

class Refused extends RmeError {
  constructor(answer) {
    const code = answer.code === undefined ? null : Number(answer.code);
    const expected = answer.expected === undefined ? "" : `, expected ${answer.expected}`;
    super(
      code === null
        ? "the job's number was given up and never counts: make the job under the next number"
        : `the server refuses: ${answer.error} (${code}${expected}); \`rme explain ${answer.error}\` says what to do`,
    );
    this.answer = answer;
    this.code = code;
    this.expected = answer.expected;
  }
}

class Done extends RmeError {
  constructor(receipt) {
    super(`job ${receipt.number} counted already: go on with the next`);
    this.receipt = receipt;
  }
}

class Pending extends RmeError {
  constructor(lock, number, stance) {
    const job = `job ${number} of lock ${lock} is pending`;
    super(
      stance === "held"
        ? `${job}, inside its lock: do its own work again, which may be half done, and call finish(); or call inside()`
        : `${job} and waits: call finish() to make it, withdraw() to give it up, or inside() with its lock and script`,
    );
    Object.assign(this, { lock, number, stance });
  }
}

class Blocked extends RmeError {
  constructor(lock, number) {
    super(`others have the lock; job ${number} stays pending: make the same call again, call finish(), or withdraw()`);
    Object.assign(this, { lock, number });
  }
}

class Overtaken extends RmeError {
  constructor(number, found, receipt = null) {
    super(
      found === null
        ? `this call was inside with job ${number}, its connection broke, and another session attached the worker before it ` +
            "came back; or the answer to its own coming back was lost. Find out whether the job counted"
        : `this call was at job ${number}, and the worker stands at job ${found}: another client uses the worker, or the ` +
            "server lost its state. Find out which, and whether the job counted",
    );
    Object.assign(this, { number, found, receipt });
  }
}

class Unreachable extends RmeError {
  constructor(reason, number = null) {
    super(number === null ? reason : `${reason}; job ${number} may have been made: make the same call with this number`);
    Object.assign(this, { reason, number });
  }
}

class ProtocolError extends RmeError {
  constructor(line, reason) {
    const shown = JSON.stringify(line.subarray(0, 200).toString("latin1"));
    super(`no answer of an rme server, ${reason}: ${shown}. See which service listens at this address`);
    Object.assign(this, { line, reason });
  }
}

class InUse extends RmeError {
  constructor() {
    super("another call or block of this Worker is under way: use a Worker of another number, and no call in a block");
  }
}

/** There is no connection, or it ended: the last order may have been obeyed. Another try may help, unless it is hopeless. */
class Lost extends Error {
  constructor(reason, isHopeless = false) {
    super(reason);
    this.isHopeless = isHopeless;
  }
}

module.exports = { RmeError, Refused, Done, Pending, Blocked, Overtaken, Unreachable, ProtocolError, InUse, Lost };
