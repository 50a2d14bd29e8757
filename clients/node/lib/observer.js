"use strict";

// Orders that need no worker, each over a connection of its own: look-ups, and the calls about spaces.

const { Addresses, connect } = require("./connection.js");
const { Lost, Refused, Unreachable } = require("./errors.js");
const { CODES, Options, begin } = require("./options.js");

class Caller {
  #addresses;
  #options;

  constructor(addresses, options) {
    this.#addresses = new Addresses(addresses);
    this.#options = new Options(options);
  }

  /** The answer to an order; further orders go before it. */
  async ask(order, ...before) {
    const ends = Date.now() + this.#options.timeout;
    const orders = [...(await this.#options.firstOrders()), ...before];
    try {
      const connection = await this.#begun(orders, ends);
      try {
        const answer = await connection.ask(order, Math.max(1, ends - Date.now()));
        answer.mustBeOf(order.do);
        return answer;
      } finally {
        connection.close();
      }
    } catch (error) {
      if (!(error instanceof Lost)) throw error;
      const reason = `${this.#addresses}: ${error.message}`;
      this.#addresses.goOn();
      throw new Unreachable(reason);
    }
  }

  /** A session that has begun, at the first address that has one. */
  async #begun(orders, ends) {
    for (let left = this.#addresses.count; ; left -= 1) {
      const time = this.#addresses.share(Math.max(1, ends - Date.now()));
      try {
        return await this.#begunHere(orders, time);
      } catch (error) {
        if (!(error instanceof Lost) || left === 1) throw error;
        this.#addresses.goOn();
      }
    }
  }

  async #begunHere(orders, time) {
    const connection = await connect(this.#addresses.current, time);
    try {
      await begin(connection, orders, time);
      return connection;
    } catch (error) {
      connection.close();
      throw error;
    }
  }
}

class Observer {
  #caller;

  constructor(addresses, options = {}) {
    this.#caller = new Caller(addresses, options);
  }

  async status() {
    const answer = await this.#look({ do: "status" });
    return {
      epoch: answer.number("epoch"),
      locks: answer.list("locks").map((it) => answer.lockStatus(it)),
      workers: answer.list("workers").map((it) => answer.workerStatus(it)),
    };
  }

  async owner(lock) {
    return (await this.#look({ do: "owner", lock })).owner();
  }

  async cells(lock) {
    return (await this.#look({ do: "cells", lock })).cells();
  }

  async #look(order) {
    try {
      return await this.#caller.ask(order);
    } catch (error) {
      if (!(error instanceof Refused) || error.code !== CODES.BUSY) throw error;
      throw new Unreachable("the server has as many sessions as it may have");
    }
  }
}

// A full server refuses the first line by the same number by which it refuses `drop` of a space that is used.
const PING = { do: "ping" };

class Spaces {
  #caller;

  constructor(addresses, options = {}) {
    this.#caller = new Caller(addresses, { ...options, space: undefined });
  }

  async create(space, locks, { workers = 8, cells = 1 } = {}) {
    await this.#caller.ask({ do: "create", space, locks: Array.from(locks), workers, cells }, PING);
  }

  async names({ after = "" } = {}) {
    const found = [];
    for (let isMore = true, last = after; isMore; last = found[found.length - 1]) {
      const answer = await this.#caller.ask({ do: "spaces", after: last || undefined }, PING);
      const page = answer.list("spaces");
      isMore = answer.bool("more");
      if (!isInOrder([last, ...page]) || (isMore && page.length === 0)) throw answer.broken("the names are not in order");
      found.push(...page);
    }
    return found;
  }

  async drop(space) {
    await this.#caller.ask({ do: "drop", space }, PING);
  }
}

/** Whether these are texts in ascending order. */
function isInOrder(names) {
  return names.every((name, at) => typeof name === "string" && (at === 0 || names[at - 1] < name));
}

module.exports = { Observer, Spaces };
