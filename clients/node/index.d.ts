// A client of `rme serve`, whose jobs count once each, whatever happens to its connections.

/** Where a server listens: at a port of a host, by default 127.0.0.1, or at a Unix socket. */
export type Address = { host?: string; port: number } | { path: string };

/** A whole number of 64 bits. A number must be exact: at most 2^53 - 1. */
export type Whole = bigint | number;

/** An operation on the cells of a lock. Its value is what its last cell holds afterwards. */
export type Operation =
  | readonly [op: "get", cell: Whole]
  | readonly [op: "set" | "add", cell: Whole, value: Whole]
  | readonly [op: "copy" | "swap", cell: Whole, other: Whole];

/** At most eight operations. */
export type Script = readonly Operation[];

/** The stance of a worker: no job is pending, its job waits for its lock, or it is inside. */
export type Stance = "ready" | "climb" | "held";

/** The receipt of a job that counted: it was the `place`-th section of its lock; `reply` is the value of its last operation. */
export interface Receipt {
  lock: string;
  number: bigint;
  place: bigint;
  reply: bigint;
  worker: number;
}

/** A job that is not over, as it was handed over: cells are numbers, and values BigInts. */
export interface PendingJob {
  lock: string;
  number: bigint;
  script: (["get", number] | ["set" | "add", number, bigint] | ["copy" | "swap", number, number])[];
  stance: "climb" | "held";
}

/**
 * A job whose worker is inside its lock. `again` says whether it was pending before, so that its block may have been begun
 * before. `section` and `life` are the fencing token: if a resource outside keeps the greatest pair, and refuses a lower one,
 * it refuses the writes of a client that was cut off while others went on.
 */
export interface Held {
  readonly number: bigint;
  readonly again: boolean;
  readonly section: bigint;
  readonly life: bigint;
}

export interface CallerOptions {
  /** If an answer has not come within this number of milliseconds, the connection counts as broken. By default 30,000. */
  timeout?: number;
  /** The secret with which each session begins, at a server with keys. */
  secret?: string;
  /** The same, as the first line of a file, which is read for each session. */
  keyFile?: string;
}

export interface ObserverOptions extends CallerOptions {
  /** The space that each session uses, at a server of spaces. */
  space?: string;
}

export interface WorkerOptions extends ObserverOptions {
  /**
   * The milliseconds for which a call tries to get a session, each time that one is needed: it waits for a server that is not
   * there or is full, and for the end of another client that has the worker. With 0 it tries once. By default for ever.
   */
  connectTimeout?: number;
  /** First takes the worker over from a client that has it, and closes its connection: it must be known to be gone. */
  take?: boolean;
  /** What the `status` of a server with a state shows of the worker: at most 64 bytes. */
  label?: string;
}

export interface JobOptions {
  /** The job's number, by default the next. A program that may be killed gives it, and the same one when it comes back. */
  number?: Whole;
  /** The milliseconds for which the call waits for the lock; with 0 it tries once. By default for ever. */
  wait?: number;
}

/**
 * One worker of a server. One client at a time uses a worker.
 *
 * A connection that breaks is made again, and a server that is not there is waited for. Any call rejects with `InUse` during
 * another call; `Unreachable` if no session can be had; `Refused` if the server refuses; `Overtaken` if the answers show that
 * another client used the worker meanwhile; and `ProtocolError` if the peer is not a server.
 */
export class Worker {
  /** Connects at the first call, to the first address that has a server; the others are tried if that server is gone. */
  constructor(addresses: Address | readonly Address[], worker: number, options?: WorkerOptions);
  /** Makes the job. Without a number: `Pending` if another is pending. `Blocked` if others have the lock for all of `wait`. */
  submit(lock: string, script: Script, options?: JobOptions): Promise<Receipt>;
  /**
   * Enters the lock with this job, runs the block, commits the job, and answers its receipt. From the beginning of the block
   * until then no other worker is inside the lock, even if the connection breaks or this program is killed. The block is begun
   * again after a crash. If it throws, nothing is committed: the session ends, and the worker stays inside for the next
   * `inside`. `Done` if the job of the given number counted already; `Pending` and `Blocked` as of `submit`.
   */
  inside(lock: string, script: Script, block: (held: Held) => unknown, options?: JobOptions): Promise<Receipt>;
  /** Makes the pending job, without its block. If none is pending, answers the last receipt, or null. */
  finish(options?: { wait?: number }): Promise<Receipt | null>;
  /** Gives up the pending job, and answers null. One that is inside is finished. If none is pending, as `finish`. */
  withdraw(): Promise<Receipt | null>;
  /** The number of the job that is pending, or of the next one if none is pending. */
  nextNumber(): Promise<bigint>;
  /** The receipt of the last job; null if it was given up, or if there was none. `Refused`, 9, with a job pending. */
  last(): Promise<Receipt | null>;
  /** The pending job; null if none is pending. */
  pending(): Promise<PendingJob | null>;
  /** Ends the session: the worker falls, and its pending job stays pending. The next call makes another session. */
  close(): Promise<void>;
}

export interface Cells {
  cells: bigint[];
  /** False while the lock has an owner whose job has not counted. */
  settled: boolean;
}

export interface LockStatus extends Cells {
  name: string;
  owner: number | null;
  sections: bigint;
}

export interface WorkerStatus {
  attached: boolean;
  stance: Stance;
  /** The number of its pending job, or else of its last job. */
  number: bigint;
  /** The lock of the pending job, if a job is pending. */
  lock?: string;
  /** The worker that holds the node that this worker needs next. */
  blockedBy?: number;
  /** The label that its last client gave. */
  label?: string;
  /** For how many seconds it has had this stance, as this server saw it. */
  seconds?: number;
}

export interface Status {
  /** How many checkpoints there were. */
  epoch: bigint;
  locks: LockStatus[];
  workers: WorkerStatus[];
}

/** Look-ups, at a server with a state. Each call is one connection, made once. `Refused`: 1 without a state, 11: no such lock. */
export class Observer {
  constructor(addresses: Address | readonly Address[], options?: ObserverOptions);
  status(): Promise<Status>;
  /** The worker that owns the lock, attached or down; null if it has no owner. */
  owner(lock: string): Promise<number | null>;
  cells(lock: string): Promise<Cells>;
}

/** An administrator of a server of spaces. If an answer was lost, the call rejects with `Unreachable`, and may be repeated. */
export class Spaces {
  constructor(addresses: Address | readonly Address[], options?: CallerOptions);
  /** Creates a space of 8 workers and 1 cell of each lock, by default. `Refused`, 24, if it exists with another shape. */
  create(space: string, locks: readonly string[], options?: { workers?: number; cells?: number }): Promise<void>;
  /** The names of all spaces in order, or, if `after` is given, of those after it. */
  names(options?: { after?: string }): Promise<string[]>;
  /** Removes a space. `Refused`: 9 while it is used or a job is pending in it, 23 if no space has this name. */
  drop(space: string): Promise<void>;
}

/** Any error of this package. Its message says what to do. */
export class RmeError extends Error {}

/** The server refuses the order. `code` is the refusal's number; null if the job's number was given up and never counts. */
export class Refused extends RmeError {
  readonly code: number | null;
  /** For a wrong number: the expected one. */
  readonly expected?: bigint;
  readonly answer: Record<string, unknown>;
}

/** The job of the given number counted already, so its block was not run. */
export class Done extends RmeError {
  readonly receipt: Receipt;
}

/** The worker has a job that this object did not hand over, and this call did not go on with. Nothing was done. */
export class Pending extends RmeError {
  readonly lock: string;
  readonly number: bigint;
  readonly stance: "climb" | "held";
}

/** Others had the lock for all of `wait`. The job stays pending: make the same call again, `finish` or `withdraw`. */
export class Blocked extends RmeError {
  /** Null after `finish`, if the lock is not known. */
  readonly lock: string | null;
  readonly number: bigint;
}

/**
 * Another client used the worker, or the server lost its state. It is not known whether the job of `number` counted. `found` is
 * the number at which the worker stands; null if another session attached it since the block began, or the answer to this
 * call's own attach was lost.
 */
export class Overtaken extends RmeError {
  readonly number: bigint;
  readonly found: bigint | null;
  readonly receipt: Receipt | null;
}

/** No session could be had. `number` is that of the job that was sent before, or null: make the same call with this number. */
export class Unreachable extends RmeError {
  readonly reason: string;
  readonly number: bigint | null;
}

/** What came is not an answer of this protocol. `line` has the bytes up to the error. */
export class ProtocolError extends RmeError {
  readonly line: Uint8Array;
  readonly reason: string;
}

/** Another call of this `Worker` is under way, or its block is. Nothing was sent. */
export class InUse extends RmeError {}
