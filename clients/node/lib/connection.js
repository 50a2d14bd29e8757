"use strict";

// Connections to a server, over each of which orders and answers go one by one.

const fs = require("node:fs");
const net = require("node:net");
const { Answer } = require("./answers.js");
const { Lost, ProtocolError } = require("./errors.js");
const { stringify } = require("./json.js");

// The most bytes of an answer. The longest that a server has, 1,000 names of spaces of 64 bytes each, takes 67 KB.
const LIMIT = 262_144;

// Errors that do not end before the address or the permissions are changed.
const HOPELESS = new Set(
  ["EACCES", "EPERM", "ENOTDIR", "EPROTOTYPE", "ENAMETOOLONG", "ELOOP", "EAFNOSUPPORT", "EINVAL", "ENOTFOUND"],
);

const NEWLINE = 10;
const BRACE = 123;

/** The addresses of a server and of servers that may take its place. The one of the last session is tried first. */
class Addresses {
  constructor(given) {
    this.all = (Array.isArray(given) ? given : [given]).map(checked);
    if (this.all.length === 0) throw new TypeError("there is no address");
    this.at = 0;
  }

  get count() {
    return this.all.length;
  }

  get current() {
    return this.all[this.at];
  }

  toString() {
    const { path, host, port } = this.current;
    return path ?? `${host}:${port}`;
  }

  /** The next try is at the next address. */
  goOn() {
    this.at = (this.at + 1) % this.all.length;
  }

  /** The milliseconds for which one address is tried, if all together have this number of milliseconds. */
  share(time) {
    return this.count === 1 ? time : Math.max(500, time / this.count);
  }
}

function checked(address) {
  if (typeof address?.path === "string") return { path: address.path };
  const { host = "127.0.0.1", port } = address ?? {};
  if (!Number.isInteger(port) || port < 1 || port > 65_535) throw new TypeError(`${port} is not a port of a server`);
  return { host, port };
}

/** A connection to the address within this time. `Lost` if none can be made. */
async function connect(address, time) {
  const socket = net.connect({ ...address, noDelay: true });
  const connection = new Connection(socket);
  try {
    await connection.made(time);
    // A port of the system's own range, on which nobody listens, may be given to the connection itself.
    if (!address.path && socket.localPort === socket.remotePort && socket.localAddress === socket.remoteAddress) {
      throw new Lost("nobody listens, and the connection came back to itself");
    }
    return connection;
  } catch (error) {
    connection.close();
    // The system says only that nobody listens.
    if (address.path && (await isAnotherFile(address.path))) throw new Lost("it is not a socket", true);
    throw error;
  }
}

async function isAnotherFile(path) {
  try {
    return !(await fs.promises.stat(path)).isSocket();
  } catch {
    return false;
  }
}

/** A connection on which one order at a time is answered. */
class Connection {
  #socket;
  #held = [];
  #waiter = null;
  #over = null;

  constructor(socket) {
    this.#socket = socket;
    socket.on("connect", () => this.#settle(null));
    socket.on("data", (piece) => this.#hear(piece));
    socket.on("end", () => this.#end(new Lost("the server closed the connection")));
    socket.on("close", () => this.#end(new Lost("the connection is closed")));
    socket.on("error", (error) => this.#end(new Lost(error.message || error.code, HOPELESS.has(error.code))));
  }

  made(time) {
    return this.#wait(time, "no connection");
  }

  /**
   * Sends the order, and answers the answer. `Lost` if all of it has not come within this time, or the connection ended;
   * `ProtocolError` if what comes is not an answer. After either the connection is of no use.
   */
  async ask(order, time) {
    if (this.#over) throw this.#over;
    this.#socket.write(`${stringify(order)}\n`);
    return new Answer(await this.#wait(time, "no answer"));
  }

  /** Whether nothing has come since the last answer: neither the end of the connection nor bytes that nobody asked for. */
  async isQuiet() {
    // Two turns of the event loop, so that what has come by now is heard.
    for (let turn = 0; turn < 2; turn += 1) await new Promise((go) => setImmediate(go));
    return this.#over === null;
  }

  close() {
    this.#end(new Lost("the connection is closed"));
    this.#socket.destroy();
  }

  #wait(time, what) {
    if (this.#over) return Promise.reject(this.#over);
    return new Promise((resolve, reject) => {
      const late = setTimeout(() => this.#end(new Lost(`${what} within ${time} milliseconds`)), time);
      this.#waiter = { resolve, reject, late };
    });
  }

  #settle(line) {
    const waiter = this.#waiter;
    this.#waiter = null;
    if (!waiter) return;
    clearTimeout(waiter.late);
    waiter.resolve(line);
  }

  #end(why) {
    this.#over ??= why;
    const waiter = this.#waiter;
    this.#waiter = null;
    if (!waiter) return;
    clearTimeout(waiter.late);
    waiter.reject(this.#over);
  }

  #hear(piece) {
    if (!this.#waiter) {
      this.#end(new ProtocolError(piece, "it answers no order"));
      return;
    }
    this.#held.push(piece);
    const line = Buffer.concat(this.#held);
    const newline = piece.indexOf(NEWLINE);
    if (line[0] !== BRACE) this.#end(new ProtocolError(line, "it begins no object"));
    else if (newline >= 0 && newline < piece.length - 1) {
      this.#end(new ProtocolError(line, "more than one line answers one order"));
    } else if (line.length > LIMIT) this.#end(new ProtocolError(line, "it is too long"));
    else if (newline >= 0) {
      this.#held = [];
      this.#settle(line);
    } else this.#held = [line];
  }
}

module.exports = { Addresses, connect };
