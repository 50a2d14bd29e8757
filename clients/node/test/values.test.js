"use strict";

const assert = require("node:assert");
const fs = require("node:fs");
const path = require("node:path");
const test = require("node:test");

const rme = require("../index.js");
const { parse, stringify } = require("../lib/json.js");

const { InUse, Observer, Unreachable, Worker } = rme;

test("whole numbers are exact", () => {
  assert.strictEqual(parse("18446744073709551615"), 2n ** 64n - 1n);
  assert.strictEqual(parse("9007199254740993"), 9_007_199_254_740_993n);
  for (const other of ["18446744073709551616", "-0", "-1", "1.0", "1e0", "1E+2"]) assert.strictEqual(typeof parse(other), "number");
  assert.strictEqual(stringify({ a: [2n ** 64n - 1n, 1, "\n", true, null], b: undefined }), '{"a":[18446744073709551615,1,"\\n",true,null]}');
});

test("what is no JSON is refused", () => {
  const texts = ["", "01", "1.", "1e", "-", "nul", "[1", "[1,]", '{"a"}', '{"a":1,}', "{a:1}", '"a', '"\n"', "1 2", '"\\x"', '"\\u12"'];
  for (const text of texts) assert.throws(() => parse(text), SyntaxError, text);
  assert.throws(() => parse("[".repeat(100_000)), SyntaxError);
});

test("texts and names come back", () => {
  const value = parse(' {"a" : ["\\"\\\\\\/\\b\\f\\n\\r\\t\\u00e4\\ud83c\\udf4e", true, false, null, {}, []], "__proto__":5} ');
  assert.strictEqual(value.a[0], '"\\/\b\f\n\r\t\u00e4\u{1f34e}');
  assert.strictEqual(value.__proto__, 5n);
  assert.strictEqual(stringify(parse(stringify(value))), stringify(value));
});

test("invalid arguments are refused before anything is sent", async () => {
  const here = { host: "127.0.0.1", port: 1 };
  for (const address of [[], { port: 0 }, { port: "7000" }, {}]) assert.throws(() => new Worker(address, 0), TypeError);
  for (const worker of [-1, 0.5, "0", undefined]) assert.throws(() => new Worker(here, worker), TypeError);
  for (const options of [{ timeout: 0 }, { connectTimeout: -1 }, { label: "ä".repeat(33) }, { secret: "a", keyFile: "b" }]) {
    assert.throws(() => new Worker(here, 0, options), TypeError);
  }
  const worker = new Worker(here, 0, { connectTimeout: 0 });
  const scripts = [[["add", 0, 2 ** 53]], [["add", 0, -1n]], [["add", 0, 2n ** 64n]], [["add", 0]], [["mul", 0, 1]], [["toString"]]];
  for (const script of scripts) await assert.rejects(worker.submit("bank", script), TypeError);
  await assert.rejects(worker.submit("bank", [], { wait: -1 }), TypeError);
  await assert.rejects(worker.submit("bank", [], { number: 1.5 }), TypeError);
});

test("one call at a time, and nobody listens", async () => {
  const here = [{ host: "127.0.0.1", port: 1 }, { path: "/nowhere/socket" }];
  const worker = new Worker(here, 0, { connectTimeout: 300 });
  const first = worker.last();
  await assert.rejects(worker.last(), InUse);
  await assert.rejects(worker.close(), InUse);
  await assert.rejects(first, Unreachable);
  await worker.close();
  await assert.rejects(new Observer(here).status(), Unreachable);
  await assert.rejects(new Worker({ path: __filename }, 0).last(), Unreachable);
  await assert.rejects(new Worker(here, 0, { keyFile: "/nowhere/key" }).last(), { code: "ENOENT" });
});

test("the types name what is there", () => {
  const classes = fs.readFileSync(path.join(__dirname, "..", "index.d.ts"), "utf8").split(/^export class /m).slice(1);
  const found = Object.fromEntries(classes.map((text) => [text.match(/^\w+/)[0], text]));
  assert.deepStrictEqual(Object.keys(found).sort(), Object.keys(rme).sort());
  for (const name of ["Worker", "Observer", "Spaces"]) {
    const methods = [...found[name].split(/^}/m)[0].matchAll(/^ {2}(\w+)\(/gm)].map(([, method]) => method);
    assert.deepStrictEqual(methods.sort(), Object.getOwnPropertyNames(rme[name].prototype).sort());
  }
});
