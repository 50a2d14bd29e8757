"use strict";

// The conversations that all clients have with one stand-in server: ../conversations, whose README describes them.

const assert = require("node:assert");
const { spawn } = require("node:child_process");
const fs = require("node:fs");
const path = require("node:path");
const readline = require("node:readline");
const test = require("node:test");
const { setTimeout: sleep } = require("node:timers/promises");

const { Observer, RmeError, Spaces, Worker } = require("../index.js");
const { parse, stringify } = require("../lib/json.js");

const FOLDER = path.join(__dirname, "..", "..", "conversations");
const AT_ONCE = 8;
const LATEST = 60; // how many seconds a client tries to get a session, if the conversation does not say it

class Block extends Error {}

/** The other side of all conversations. */
class StandIn {
  constructor() {
    this.program = spawn("python3", [path.join(FOLDER, "stand_in.py")], { stdio: ["pipe", "pipe", "inherit"] });
    this.lines = readline.createInterface({ input: this.program.stdout })[Symbol.asyncIterator]();
  }

  async line() {
    return (await this.lines.next()).value;
  }

  async verdict(name) {
    this.program.stdin.write(`${name}\n`);
    return this.line();
  }

  end() {
    this.program.stdin.end();
  }
}

function conversations() {
  const found = [];
  for (const line of fs.readFileSync(path.join(FOLDER, "conversations.jsonl"), "utf8").split("\n")) {
    if (line === "") continue;
    const step = parse(line);
    if (step.conversation !== undefined) found.push([step, []]);
    else found[found.length - 1][1].push(step);
  }
  return found;
}

/** The calls and pauses of a conversation: each with what it begins with inside, and its result. */
function callsOf(steps) {
  const found = [];
  for (const step of steps) {
    if (step.call !== undefined || step.pause !== undefined) found.push([step, {}]);
    else if (["held", "returns", "raises"].some((it) => step[it] !== undefined)) Object.assign(found[found.length - 1][1], step);
  }
  return found;
}

function milliseconds(seconds) {
  return seconds === undefined ? undefined : 1000 * Number(seconds);
}

class Clients {
  constructor(told, ports) {
    const addresses = ports.map((port) => ({ host: "127.0.0.1", port: Number(port) }));
    const connectTimeout = milliseconds(told.connect_timeout ?? LATEST);
    const { label, secret, space, take } = told;
    const options = { connectTimeout, label, secret, space, take };
    this.worker = new Worker(addresses, Number(told.worker ?? 0), options);
    this.observer = new Observer(addresses, options);
    this.spaces = new Spaces(addresses, options);
  }

  /** The result of a call. */
  async call(call, found) {
    const { lock, script, number, space } = call;
    const options = { number, wait: milliseconds(call.wait) };
    switch (call.call) {
      case "submit":
        return this.worker.submit(lock, script, options);
      case "inside":
        return this.worker.inside(
          lock,
          script,
          (held) => {
            found.held = held;
            if (call.fails) throw new Block();
          },
          options,
        );
      case "finish":
        return this.worker.finish(options);
      case "next_number":
        return this.worker.nextNumber();
      case "status":
        return statusOf(await this.observer.status());
      case "owner":
      case "cells":
        return this.observer[call.call](lock);
      case "create":
        return this.spaces.create(space, call.locks, { workers: call.workers, cells: call.cells });
      case "spaces":
        return this.spaces.names();
      case "drop":
        return this.spaces.drop(space);
      default:
        return this.worker[call.call]();
    }
  }
}

/** A status by the names that the server has for its members. */
function statusOf({ epoch, locks, workers }) {
  return { epoch, locks, workers: workers.map(({ label, blockedBy, ...more }) => ({ ...more, as: label, blocked_by: blockedBy })) };
}

/** An error, by the members that the conversation names. */
function errorOf(error, wanted) {
  if (!(error instanceof RmeError || error instanceof Block)) throw error;
  const named = Object.keys(wanted ?? {}).filter((name) => name !== "error");
  return { error: error.name === "Error" ? "Block" : error.name, ...Object.fromEntries(named.map((name) => [name, error[name]])) };
}

/** The text of a value with sorted members: a BigInt and a number are the same. */
function sorted(value) {
  if (Array.isArray(value)) return `[${value.map(sorted).join(",")}]`;
  if (value === null || value === undefined || typeof value !== "object") return value === undefined ? "null" : stringify(value);
  const members = Object.entries(value).filter(([, it]) => it !== undefined);
  return `{${members.sort(([one], [other]) => (one < other ? -1 : 1)).map(([name, it]) => `${name}:${sorted(it)}`).join(",")}}`;
}

async function play(told, steps, ports) {
  const clients = new Clients(told, ports);
  try {
    for (const [call, wanted] of callsOf(steps)) {
      if (call.pause !== undefined) {
        await sleep(milliseconds(call.pause));
        continue;
      }
      const found = {};
      try {
        found.returns = (await clients.call(call, found)) ?? null;
      } catch (error) {
        found.raises = errorOf(error, wanted.raises);
      }
      assert.strictEqual(sorted(found), sorted(wanted), stringify(call));
    }
  } finally {
    await clients.worker.close();
  }
}

test("all conversations", { skip: !fs.existsSync(FOLDER) }, async (context) => {
  const standIn = new StandIn();
  const ports = parse(await standIn.line());
  const [all, results] = [conversations(), new Map()];
  const queue = [...all];
  const turn = async () => {
    for (let next = queue.shift(); next; next = queue.shift()) {
      const [told, steps] = next;
      const why = await play(told, steps, ports[told.conversation]).then(() => null, (error) => error);
      results.set(told.conversation, why);
    }
  };
  await Promise.all(Array.from({ length: AT_ONCE }, turn));
  const wrong = [];
  for (const [{ conversation }] of all) {
    const verdict = await standIn.verdict(conversation);
    const why = results.get(conversation);
    if (why || verdict !== "ok") wrong.push(`${conversation}: ${why}; the stand-in: ${verdict}`);
  }
  standIn.end();
  context.diagnostic(`${all.length} conversations, ${wrong.length} wrong`);
  assert.deepStrictEqual(wrong, []);
});
