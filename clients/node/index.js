"use strict";

const errors = require("./lib/errors.js");
const { Worker } = require("./lib/worker.js");
const { Observer, Spaces } = require("./lib/observer.js");

module.exports = {
  Worker,
  Observer,
  Spaces,
  RmeError: errors.RmeError,
  Blocked: errors.Blocked,
  Done: errors.Done,
  InUse: errors.InUse,
  Overtaken: errors.Overtaken,
  Pending: errors.Pending,
  ProtocolError: errors.ProtocolError,
  Refused: errors.Refused,
  Unreachable: errors.Unreachable,
};
