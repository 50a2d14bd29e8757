"use strict";

// Answers of a server, whose members are checked before they are used.

const { parse } = require("./json.js");
const { ProtocolError, Refused } = require("./errors.js");

const STANCES = ["ready", "climb", "held"];

class Answer {
  /** One line that was answered. Each method answers a member of it; `ProtocolError` if that is not as it must be. */
  constructor(line) {
    this.line = line;
    try {
      this.members = parse(new TextDecoder("utf-8", { fatal: true, ignoreBOM: true }).decode(line));
    } catch {
      throw this.broken("it is not JSON");
    }
    if (!isObject(this.members)) throw this.broken("it is no object");
  }

  broken(reason) {
    return new ProtocolError(this.line, reason);
  }

  /** `Refused` if the order was refused, and `ProtocolError` if this does not answer the order. */
  mustBeOf(order) {
    if (this.has("code")) {
      if (typeof this.members.code !== "bigint" || typeof this.members.error !== "string") throw this.broken("it is not a refusal");
      throw new Refused({ ...this.members });
    }
    if (this.members.ok !== order) throw this.broken(`it does not answer \`${order}\``);
  }

  has(name) {
    return this.members[name] !== undefined;
  }

  mustSay(name) {
    if (this.members[name] !== true) throw this.broken(`\`${name}\` is not true`);
  }

  /** A whole number of 64 bits. */
  number(name, object = this.members) {
    if (typeof object[name] !== "bigint") throw this.broken(`\`${name}\` is not a number`);
    return object[name];
  }

  /** A number that is small, as that of a worker. */
  small(name, object = this.members) {
    const found = this.number(name, object);
    if (found > BigInt(Number.MAX_SAFE_INTEGER)) throw this.broken(`\`${name}\` is too large`);
    return Number(found);
  }

  text(name, object = this.members) {
    if (typeof object[name] !== "string") throw this.broken(`\`${name}\` is no text`);
    return object[name];
  }

  bool(name, object = this.members) {
    if (typeof object[name] !== "boolean") throw this.broken(`\`${name}\` is not true or false`);
    return object[name];
  }

  list(name, object = this.members) {
    if (!Array.isArray(object[name])) throw this.broken(`\`${name}\` is not a list`);
    return object[name];
  }

  stance(object = this.members) {
    if (!STANCES.includes(object.stance)) throw this.broken("`stance` is not a stance of a session");
    return object.stance;
  }

  owner(object = this.members) {
    return object.owner === null ? null : this.small("owner", object);
  }

  cells(object = this.members) {
    const cells = this.list("cells", object);
    if (!cells.every((it) => typeof it === "bigint")) throw this.broken("`cells` is not a list of cells");
    return { cells, settled: this.bool("settled", object) };
  }

  /** The receipt of the worker's job of this number, or null. */
  receipt(name, worker, number) {
    const found = this.members[name];
    if (found === null) return null;
    if (!isObject(found)) throw this.broken(`\`${name}\` is no receipt`);
    const [place, reply] = [this.number("place", found), this.number("reply", found)];
    const receipt = { lock: this.text("lock", found), number, place, reply, worker };
    if (this.number("worker", found) !== BigInt(worker) || this.number("number", found) !== number) {
      throw this.broken(`the receipt is not that of job ${number} of worker ${worker}`);
    }
    return receipt;
  }

  /** The script of a pending job: cells are numbers, and values BigInts. */
  script() {
    return this.list("script").map((op) => {
      if (!Array.isArray(op) || typeof op[0] !== "string" || !op.slice(1).every((it) => typeof it === "bigint")) {
        throw this.broken("`script` is not a list of operations");
      }
      const hasValue = op[0] === "add" || op[0] === "set";
      return op.map((it, at) => (at === 1 || (at === 2 && !hasValue) ? Number(it) : it));
    });
  }

  lockStatus(object) {
    if (!isObject(object)) throw this.broken("`locks` has an item that is not a lock");
    const { cells, settled } = this.cells(object);
    const [name, sections] = [this.text("name", object), this.number("sections", object)];
    return { cells, name, owner: this.owner(object), sections, settled };
  }

  workerStatus(object) {
    if (!isObject(object)) throw this.broken("`workers` has an item that is not a worker");
    const found = {
      attached: this.bool("attached", object),
      number: this.number("number", object),
      stance: this.stance(object),
    };
    if (object.lock !== undefined) found.lock = this.text("lock", object);
    if (object.blocked_by !== undefined) found.blockedBy = this.small("blocked_by", object);
    if (object.as !== undefined) found.label = this.text("as", object);
    if (object.seconds !== undefined) found.seconds = this.small("seconds", object);
    return found;
  }
}

function isObject(value) {
  return value !== null && typeof value === "object" && !Array.isArray(value);
}

module.exports = { Answer };
