"use strict";

// How a client finds its server, and how long it waits.

const fs = require("node:fs");
const { Lost, Refused } = require("./errors.js");

const CODES = { BUSY: 9, IDLE: 10, DIFFERS: 17, TAKEN: 18, NOT_WAITING: 21, OVERTAKEN: 26 };

// The least number of milliseconds to wait for the answer to a secret: a wrong one is answered after 1,000.
const LEAST = 5000;

class Options {
  constructor({ timeout = 30_000, connectTimeout, take = false, label, secret, keyFile, space } = {}) {
    if (!(timeout > 0) || (connectTimeout !== undefined && !(connectTimeout >= 0))) {
      throw new TypeError("`timeout` is a number of milliseconds, more than 0, and `connectTimeout` one, or undefined");
    }
    if (label !== undefined && Buffer.byteLength(label) > 64) throw new TypeError("`label` has at most 64 bytes");
    if (secret !== undefined && keyFile !== undefined) throw new TypeError("there is a `secret` or a `keyFile`");
    Object.assign(this, { timeout, connectTimeout, take, label, secret, keyFile, space });
  }

  /** The orders with which each session begins. The file of the secret is read for each. */
  async firstOrders() {
    const orders = [];
    const secret = this.keyFile === undefined ? this.secret : await firstLine(this.keyFile);
    if (secret !== undefined) orders.push({ do: "hello", secret });
    if (this.space !== undefined) orders.push({ do: "use", space: this.space });
    return orders;
  }
}

async function firstLine(path) {
  const text = await fs.promises.readFile(path, "utf8");
  return text.split("\n", 1)[0].trim();
}

/** Begins a session with these orders, for which there is this time. A full server has no session now. */
async function begin(connection, orders, time) {
  const ends = Date.now() + time;
  for (const order of orders) {
    const answer = await connection.ask(order, Math.max(order.do === "hello" ? LEAST : 1, ends - Date.now()));
    mustHaveRoom(() => answer.mustBeOf(order.do));
  }
}

/** The result of the check; `Lost` if the server has no room for the session. */
function mustHaveRoom(check) {
  try {
    return check();
  } catch (error) {
    if (error instanceof Refused && error.code === CODES.BUSY) throw new Lost("the server has as many sessions as it may have");
    throw error;
  }
}

module.exports = { CODES, Options, begin, mustHaveRoom };
