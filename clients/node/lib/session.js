"use strict";

// A session: a connection that has the worker, and what the answers on it say about the worker's stance.

const { Lost, Overtaken, Refused } = require("./errors.js");
const { CODES, mustHaveRoom } = require("./options.js");

// For this number of milliseconds after an order a session cannot have ended for silence: `--idle` is at least 1,000.
const FRESH = 200;

// An answer to an order that works at a job has one of these members.
const OUTCOMES = {
  submit: ["receipt", "waiting", "withdrawn", "fell"],
  resume: ["receipt", "waiting", "withdrawn", "fell"],
  enter: ["receipt", "waiting", "withdrawn", "fell", "stance"],
  commit: ["receipt", "fell"],
};

class Session {
  /** `number` and `stance` are the worker's by the last answer, `lock` is the pending job's if it was handed over here, and
   * `token` the section and the life of the job that was entered here. */
  constructor(connection, worker, timeout) {
    Object.assign(this, { connection, worker, timeout, asked: 0, number: 0n, stance: "ready", lock: null, token: null });
  }

  /** Takes the worker with this order. False if another session has it. */
  async attach(order, time) {
    const asked = performance.now();
    const answer = await this.connection.ask(order, time);
    try {
      mustHaveRoom(() => answer.mustBeOf("attach"));
    } catch (error) {
      if (error instanceof Refused && error.code === CODES.TAKEN) return false;
      throw error;
    }
    this.asked = asked;
    [this.number, this.stance] = [answer.number("number"), answer.stance()];
    return true;
  }

  /**
   * Returns if the session has not ended. Then what was answered on it still holds, since no other client has had the worker.
   *
   * The server ends a session that is taken over before anybody else has its worker, so on one machine the end is heard
   * here at once. It ends a silent session just after another has the worker. So an order without effect is sent if the last
   * order was long ago.
   */
  async wake() {
    if (!(await this.connection.isQuiet())) throw new Lost("the session had ended");
    if (performance.now() - this.asked >= FRESH) await this.#ask({ do: "ping" });
  }

  /** Has the order done: the job's receipt, or null if it is still pending, and `stance` says where. */
  async hand(order) {
    const { number = this.number, lock } = order;
    const answer = await this.#ask(order);
    const found = OUTCOMES[order.do].filter((name) => answer.has(name));
    if (found.length !== 1) throw answer.broken(`it is no outcome of \`${order.do}\``);
    const [outcome] = found;
    if (outcome === "receipt") return this.#counted(answer, number, lock);
    if (outcome === "stance") {
      if (answer.stance() !== "held" || answer.number("number") !== number) throw answer.broken(`it is not about job ${number}`);
      const token = { section: answer.number("section"), life: answer.number("life") };
      this.#stands("held", number, lock);
      this.token = token;
      return null;
    }
    answer.mustSay(outcome);
    if (outcome === "fell") throw new Lost("the worker fell");
    if (outcome === "withdrawn") {
      this.#stands("ready", number);
      throw new Refused({ ...answer.members });
    }
    this.#stands("climb", number, lock ?? this.lock);
    return null;
  }

  /** Gives up the pending job. `Refused`, 21, if it is inside. */
  async withdraw() {
    const answer = await this.#ask({ do: "withdraw" });
    if (answer.has("fell")) throw new Lost("the worker fell");
    this.#mustBeAbout(answer);
    this.#stands("ready", this.number);
  }

  /** The last job's receipt; null if it was given up, or if there was none. */
  async last() {
    return (await this.#ask({ do: "last" })).receipt("last", this.worker, this.number);
  }

  /** The pending job; null if none is pending. */
  async pending() {
    let answer;
    try {
      answer = await this.#ask({ do: "pending" });
    } catch (error) {
      if (error instanceof Refused && error.code === CODES.IDLE) return null;
      throw error;
    }
    this.#mustBeAbout(answer);
    return { lock: answer.text("lock"), number: this.number, script: answer.script(), stance: answer.stance() };
  }

  /** The pending job of a worker that is known to have one. */
  async mustHavePending() {
    const pending = await this.pending();
    if (pending === null) throw new Lost("the job that was pending is gone");
    return pending;
  }

  async #ask(order) {
    const asked = performance.now();
    const answer = await this.connection.ask(order, this.timeout);
    this.asked = asked;
    answer.mustBeOf(order.do);
    return answer;
  }

  #mustBeAbout(answer) {
    if (answer.number("number") !== this.number) throw answer.broken(`it is not about job ${this.number}`);
  }

  /** The receipt of the job of this number, which must be of this lock, if one is named. */
  #counted(answer, number, lock) {
    const receipt = answer.receipt("receipt", this.worker, number);
    if (receipt === null) throw answer.broken("the receipt is null");
    this.#stands("ready", number);
    if (lock !== undefined && lock !== receipt.lock) throw new Overtaken(number, number, receipt);
    return receipt;
  }

  #stands(stance, number, lock = null) {
    Object.assign(this, { stance, number, lock, token: null });
  }
}

module.exports = { Session };
