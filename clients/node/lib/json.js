"use strict";

// JSON as the server writes it. A whole number of 64 bits is a BigInt, and exact; any other number is a number.

const MOST = 2n ** 64n - 1n;
const DEPTH = 128;
const SPACES = /[ \t\n\r]*/y;
const NUMBER = /-?(?:0|[1-9][0-9]*)(\.[0-9]+)?([eE][+-]?[0-9]+)?/y;
const TEXT = /"(?:[^"\\\u0000-\u001f]|\\(?:["\\/bfnrt]|u[0-9a-fA-F]{4}))*"/y;
const WORDS = [["null", null], ["true", true], ["false", false]];

class Reader {
  constructor(text) {
    this.text = text;
    this.at = 0;
  }

  match(pattern) {
    pattern.lastIndex = this.at;
    const found = pattern.exec(this.text);
    if (found) this.at = pattern.lastIndex;
    return found;
  }

  /** Goes on after this letter, if it is the next one that is not a space. */
  takes(letter) {
    this.match(SPACES);
    if (this.text[this.at] !== letter) return false;
    this.at += 1;
    return true;
  }

  must(letter) {
    if (!this.takes(letter)) throw new SyntaxError(`no ${letter} at ${this.at}`);
  }

  value(depth) {
    if (depth > DEPTH) throw new SyntaxError("it is too deep");
    if (this.takes("{")) return this.object(depth);
    if (this.takes("[")) return this.list(depth);
    if (this.text[this.at] === '"') return this.string();
    const number = this.match(NUMBER);
    if (number) return numberOf(number);
    const found = WORDS.find(([word]) => this.text.startsWith(word, this.at));
    if (!found) throw new SyntaxError(`no value at ${this.at}`);
    this.at += found[0].length;
    return found[1];
  }

  string() {
    this.match(SPACES);
    const found = this.match(TEXT);
    if (!found) throw new SyntaxError(`no text at ${this.at}`);
    return JSON.parse(found[0]);
  }

  list(depth) {
    const values = [];
    if (this.takes("]")) return values;
    do values.push(this.value(depth + 1));
    while (this.takes(","));
    this.must("]");
    return values;
  }

  object(depth) {
    const members = Object.create(null);
    if (this.takes("}")) return members;
    do {
      const name = this.string();
      this.must(":");
      members[name] = this.value(depth + 1);
    } while (this.takes(","));
    this.must("}");
    return members;
  }
}

function numberOf([text, point, exponent]) {
  if (point === undefined && exponent === undefined && !text.startsWith("-") && text.length <= 20) {
    const whole = BigInt(text);
    if (whole <= MOST) return whole;
  }
  return Number(text);
}

/** The value of a whole text. `SyntaxError` if it is not JSON. */
function parse(text) {
  const reader = new Reader(text);
  const value = reader.value(0);
  reader.match(SPACES);
  if (reader.at < text.length) throw new SyntaxError("there is more behind the value");
  return value;
}

/** The text of a value, in which a BigInt is a whole number. Members that are undefined are left out. */
function stringify(value) {
  if (typeof value === "bigint") return value.toString();
  if (Array.isArray(value)) return `[${value.map(stringify).join(",")}]`;
  if (value === null || typeof value !== "object") return JSON.stringify(value);
  const members = Object.entries(value).filter(([, it]) => it !== undefined);
  return `{${members.map(([name, it]) => `${JSON.stringify(name)}:${stringify(it)}`).join(",")}}`;
}

module.exports = { parse, stringify, MOST };
