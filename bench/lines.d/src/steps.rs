//! The own steps of workers, by a plain program with no contract: the same words and the same stages as a world's.

const CELLS: usize = 16;

/// How many workers, locks and cells there are, and the tree of a lock.
#[derive(Clone, Copy)]
pub struct Shape {
    pub workers: usize,
    pub locks: usize,
    pub cells: usize,
    pub jobs: u32,
    pub leaves: usize,
    pub height: u32,
}

#[derive(Clone, Copy, PartialEq)]
pub enum Op {
    Get(u32),
    Set(u32, u64),
    Add(u32, u64),
    Copy(u32, u32),
    Swap(u32, u32),
}

impl Op {
    /// The greatest cell that is named.
    pub fn most_cell(self) -> u32 {
        match self {
            Op::Get(c) | Op::Set(c, _) | Op::Add(c, _) => c,
            Op::Copy(a, b) | Op::Swap(a, b) => a.max(b),
        }
    }
}

#[derive(Clone, Copy)]
pub struct Script {
    pub ops: [Op; 8],
    pub n: u32,
}

#[derive(Clone, Copy)]
pub struct Receipt {
    pub worker: u32,
    pub lock: u32,
    pub number: u32,
    pub place: u32,
    pub reply: u64,
}

pub struct Entry {
    pub receipt: Receipt,
    pub script: Script,
}

#[derive(Clone, Copy)]
#[allow(dead_code)]
pub enum Note {
    Quiet,
    Asked(u32),
    Blocked,
    Entered(u32),
    Reentered(u32),
    Finished(Receipt),
    Left(u32),
    Ready,
    Withdrew(u32),
}

#[derive(Clone, Copy)]
#[allow(dead_code)]
pub enum Stage {
    Ready,
    LoadBegun,
    LoadDone,
    LoadLock { pending: bool },
    LoadPath { pending: bool, held: u32 },
    Post { stored: u32 },
    Climb { held: u32 },
    LoadTurn,
    LoadLen,
    LoadSlate { loaded: u32 },
    LoadCell { cell: u32 },
    StoreShadow { cell: u32 },
    StoreShadowReply,
    StoreMask,
    StoreTurn,
    LoadMask,
    LoadShadow { cell: u32 },
    StoreCell { cell: u32, value: u64 },
    LoadReply,
    StoreReply,
    StorePlace,
    StoreAt,
    StoreDone,
    LoadExitTurn,
    StoreExitTurn,
    Clear { level: u32 },
    WithdrawPlace { held: u32 },
    WithdrawAt { held: u32 },
    WithdrawReply { held: u32 },
    WithdrawDone { held: u32 },
}

/// A worker that is up: its stage, and what it knows there.
pub struct Up {
    pub stage: Stage,
    pub begun: u32,
    pub lock: u32,
    pub turn: u64,
    pub mask: u64,
    pub reply: u64,
    pub operations: u32,
    pub script: Script,
    pub words: [u64; 24],
    pub row: [u64; CELLS],
}

#[derive(Clone, Copy, Default)]
pub struct Counts {
    pub steps: [u32; 5],
}

pub const BEGUN: usize = 0;
pub const DONE: usize = 1;
pub const REPLY: usize = 2;
pub const PLACE: usize = 3;
pub const AT: usize = 4;
pub const SLATE_LOCK: usize = 5;
pub const SLATE_LEN: usize = 6;
pub const SLATE: usize = 7;

pub fn own(worker: usize, offset: usize) -> usize {
    31 * worker + offset
}

pub fn of_lock(shape: Shape, lock: u32, offset: usize) -> usize {
    31 * shape.workers + lock as usize * (shape.leaves + 2 + 2 * shape.cells) + offset
}

pub fn node(shape: Shape, worker: usize, level: u32) -> usize {
    (shape.leaves + worker) >> level
}

pub fn side(shape: Shape, worker: usize, level: u32) -> u64 {
    1 + ((shape.leaves + worker) >> (level - 1)) as u64 % 2
}

fn op_words(op: Op) -> [u64; 3] {
    match op {
        Op::Get(c) => [0, c as u64, 0],
        Op::Set(c, v) => [1, c as u64, v],
        Op::Add(c, v) => [2, c as u64, v],
        Op::Copy(a, b) => [3, a as u64, b as u64],
        Op::Swap(a, b) => [4, a as u64, b as u64],
    }
}

fn op_of(words: &[u64]) -> Op {
    let c = words[1] as u32;
    match words[0] {
        0 => Op::Get(c),
        1 => Op::Set(c, words[2]),
        2 => Op::Add(c, words[2]),
        3 => Op::Copy(c, words[2] as u32),
        _ => Op::Swap(c, words[2] as u32),
    }
}

pub fn script_of(n: u32, words: &[u64]) -> Script {
    let mut script = Script { ops: [Op::Get(0); 8], n };
    for i in 0..n as usize {
        script.ops[i] = op_of(&words[3 * i..3 * i + 3]);
    }
    script
}

fn named(script: &Script) -> u64 {
    let mut mask = 0;
    for op in &script.ops[..script.n as usize] {
        mask |= match *op {
            Op::Get(c) | Op::Set(c, _) | Op::Add(c, _) => 1 << c,
            Op::Copy(a, b) | Op::Swap(a, b) => 1 << a | 1 << b,
        };
    }
    mask
}

fn eval(script: &Script, row: &mut [u64; CELLS]) -> u64 {
    let mut reply = 0;
    for op in &script.ops[..script.n as usize] {
        reply = match *op {
            Op::Get(c) => row[c as usize],
            Op::Set(c, v) => {
                row[c as usize] = v;
                v
            }
            Op::Add(c, v) => {
                row[c as usize] = row[c as usize].wrapping_add(v);
                row[c as usize]
            }
            Op::Copy(a, b) => {
                row[b as usize] = row[a as usize];
                row[b as usize]
            }
            Op::Swap(a, b) => {
                row.swap(a as usize, b as usize);
                row[b as usize]
            }
        };
    }
    reply
}

fn next_cell(mask: u64, from: u32) -> Option<u32> {
    let rest = mask & (1u64 << CELLS) - 1 & !((1 << from) - 1);
    if rest == 0 { None } else { Some(rest.trailing_zeros()) }
}

/// The phase of a stage: Recover, Post, Enter, Section, Exit, or none when ready.
pub fn phase(stage: Stage) -> usize {
    use Stage::*;
    match stage {
        LoadBegun | LoadDone | LoadLock { .. } | LoadPath { .. } => 0,
        Post { .. } => 1,
        Climb { .. } => 2,
        LoadTurn | LoadLen | LoadSlate { .. } | LoadCell { .. } | StoreShadow { .. } => 3,
        StoreShadowReply | StoreMask | StoreTurn | LoadMask | LoadShadow { .. } => 3,
        StoreCell { .. } | LoadReply | StoreReply | StorePlace | StoreAt | StoreDone => 3,
        LoadExitTurn | StoreExitTurn | Clear { .. } | WithdrawPlace { .. } => 4,
        WithdrawAt { .. } | WithdrawReply { .. } | WithdrawDone { .. } => 4,
        Ready => 5,
    }
}

impl Up {
    pub fn new() -> Up {
        Up {
            stage: Stage::Ready,
            begun: 0,
            lock: 0,
            turn: 0,
            mask: 0,
            reply: 0,
            operations: 0,
            script: Script { ops: [Op::Get(0); 8], n: 0 },
            words: [0; 24],
            row: [0; CELLS],
        }
    }

    fn cells_from(&mut self, from: u32) -> Stage {
        match next_cell(self.mask, from) {
            Some(cell) => Stage::LoadCell { cell },
            None => {
                self.reply = eval(&self.script, &mut self.row);
                self.shadows_from(0)
            }
        }
    }

    fn shadows_from(&self, from: u32) -> Stage {
        match next_cell(self.mask, from) {
            Some(cell) => Stage::StoreShadow { cell },
            None => Stage::StoreShadowReply,
        }
    }

    fn copies_from(&self, from: u32) -> Stage {
        match next_cell(self.mask, from) {
            Some(cell) => Stage::LoadShadow { cell },
            None => Stage::LoadReply,
        }
    }

    fn slate_from(&mut self, loaded: u32) -> Stage {
        if loaded < 3 * self.operations {
            return Stage::LoadSlate { loaded };
        }
        self.script = script_of(self.operations, &self.words);
        self.mask = named(&self.script);
        self.row = [0; CELLS];
        self.cells_from(0)
    }

    /// One own step: one operation on one word.
    pub fn step(&mut self, shape: Shape, words: &mut [u64], worker: usize) -> Note {
        let lock = self.lock;
        let (stage, note) = match self.stage {
            Stage::Ready => (Stage::Ready, Note::Quiet),
            Stage::LoadBegun => {
                self.begun = words[own(worker, BEGUN)] as u32;
                (Stage::LoadDone, Note::Quiet)
            }
            Stage::LoadDone => {
                let done = words[own(worker, DONE)];
                if self.begun == 0 {
                    (Stage::Ready, Note::Ready)
                } else {
                    (Stage::LoadLock { pending: done < self.begun as u64 }, Note::Quiet)
                }
            }
            Stage::LoadLock { pending } => {
                let from = if pending { SLATE_LOCK } else { AT };
                self.lock = words[own(worker, from)] as u32;
                (Stage::LoadPath { pending, held: 0 }, Note::Quiet)
            }
            Stage::LoadPath { pending, held } => {
                let found = words[of_lock(shape, lock, node(shape, worker, held + 1) - 1)];
                if found == side(shape, worker, held + 1) {
                    if held + 1 < shape.height {
                        (Stage::LoadPath { pending, held: held + 1 }, Note::Quiet)
                    } else if pending {
                        (Stage::LoadTurn, Note::Reentered(lock))
                    } else {
                        (Stage::LoadExitTurn, Note::Reentered(lock))
                    }
                } else if pending {
                    (Stage::Climb { held }, Note::Quiet)
                } else if held == 0 {
                    (Stage::Ready, Note::Ready)
                } else {
                    (Stage::Clear { level: held }, Note::Quiet)
                }
            }
            Stage::Post { stored } => {
                if stored == 2 + 3 * self.script.n {
                    self.begun += 1;
                    words[own(worker, BEGUN)] = self.begun as u64;
                    (Stage::Climb { held: 0 }, Note::Asked(self.begun))
                } else {
                    match stored {
                        0 => words[own(worker, SLATE_LOCK)] = lock as u64,
                        1 => words[own(worker, SLATE_LEN)] = self.script.n as u64,
                        _ => {
                            let at = stored as usize - 2;
                            words[own(worker, SLATE + at)] =
                                op_words(self.script.ops[at / 3])[at % 3];
                        }
                    }
                    (Stage::Post { stored: stored + 1 }, Note::Quiet)
                }
            }
            Stage::Climb { held } => {
                let word = &mut words[of_lock(shape, lock, node(shape, worker, held + 1) - 1)];
                if *word != 0 {
                    (Stage::Climb { held }, Note::Blocked)
                } else {
                    *word = side(shape, worker, held + 1);
                    if held + 1 == shape.height {
                        (Stage::LoadTurn, Note::Entered(lock))
                    } else {
                        (Stage::Climb { held: held + 1 }, Note::Quiet)
                    }
                }
            }
            Stage::LoadTurn => {
                self.turn = words[of_lock(shape, lock, shape.leaves - 1)];
                if self.turn % 2 == 0 {
                    (Stage::LoadLen, Note::Quiet)
                } else {
                    (Stage::LoadMask, Note::Quiet)
                }
            }
            Stage::LoadLen => {
                self.operations = words[own(worker, SLATE_LEN)] as u32;
                (self.slate_from(0), Note::Quiet)
            }
            Stage::LoadSlate { loaded } => {
                self.words[loaded as usize] = words[own(worker, SLATE + loaded as usize)];
                (self.slate_from(loaded + 1), Note::Quiet)
            }
            Stage::LoadCell { cell } => {
                self.row[cell as usize] = words[of_lock(shape, lock, shape.leaves + cell as usize)];
                (self.cells_from(cell + 1), Note::Quiet)
            }
            Stage::StoreShadow { cell } => {
                words[of_lock(shape, lock, shape.leaves + shape.cells + cell as usize)] = self.row[cell as usize];
                (self.shadows_from(cell + 1), Note::Quiet)
            }
            Stage::StoreShadowReply => {
                words[of_lock(shape, lock, shape.leaves + 2 * shape.cells)] = self.reply;
                (Stage::StoreMask, Note::Quiet)
            }
            Stage::StoreMask => {
                words[of_lock(shape, lock, shape.leaves + 1 + 2 * shape.cells)] = self.mask;
                (Stage::StoreTurn, Note::Quiet)
            }
            Stage::StoreTurn => {
                words[of_lock(shape, lock, shape.leaves - 1)] = self.turn + 1;
                (Stage::LoadMask, Note::Quiet)
            }
            Stage::LoadMask => {
                self.mask = words[of_lock(shape, lock, shape.leaves + 1 + 2 * shape.cells)];
                (self.copies_from(0), Note::Quiet)
            }
            Stage::LoadShadow { cell } => {
                let value = words[of_lock(shape, lock, shape.leaves + shape.cells + cell as usize)];
                (Stage::StoreCell { cell, value }, Note::Quiet)
            }
            Stage::StoreCell { cell, value } => {
                words[of_lock(shape, lock, shape.leaves + cell as usize)] = value;
                (self.copies_from(cell + 1), Note::Quiet)
            }
            Stage::LoadReply => {
                self.reply = words[of_lock(shape, lock, shape.leaves + 2 * shape.cells)];
                (Stage::StoreReply, Note::Quiet)
            }
            Stage::StoreReply => {
                words[own(worker, REPLY)] = self.reply;
                (Stage::StorePlace, Note::Quiet)
            }
            Stage::StorePlace => {
                words[own(worker, PLACE)] = self.turn / 2;
                (Stage::StoreAt, Note::Quiet)
            }
            Stage::StoreAt => {
                words[own(worker, AT)] = lock as u64;
                (Stage::StoreDone, Note::Quiet)
            }
            Stage::StoreDone => {
                words[own(worker, DONE)] = self.begun as u64;
                let receipt = Receipt {
                    worker: worker as u32,
                    lock,
                    number: self.begun,
                    place: (self.turn / 2) as u32,
                    reply: self.reply,
                };
                (Stage::LoadExitTurn, Note::Finished(receipt))
            }
            Stage::LoadExitTurn => {
                self.turn = words[of_lock(shape, lock, shape.leaves - 1)];
                if self.turn % 2 == 0 {
                    (Stage::Clear { level: shape.height }, Note::Quiet)
                } else {
                    (Stage::StoreExitTurn, Note::Quiet)
                }
            }
            Stage::StoreExitTurn => {
                words[of_lock(shape, lock, shape.leaves - 1)] = self.turn + 1;
                (Stage::Clear { level: shape.height }, Note::Quiet)
            }
            Stage::Clear { level } => {
                words[of_lock(shape, lock, node(shape, worker, level) - 1)] = 0;
                let note = if level == shape.height {
                    Note::Left(lock)
                } else if level == 1 {
                    Note::Ready
                } else {
                    Note::Quiet
                };
                (cleared(level - 1), note)
            }
            Stage::WithdrawPlace { held } => {
                words[own(worker, PLACE)] = u64::MAX;
                (Stage::WithdrawAt { held }, Note::Quiet)
            }
            Stage::WithdrawAt { held } => {
                words[own(worker, AT)] = lock as u64;
                (Stage::WithdrawReply { held }, Note::Quiet)
            }
            Stage::WithdrawReply { held } => {
                words[own(worker, REPLY)] = 0;
                (Stage::WithdrawDone { held }, Note::Quiet)
            }
            Stage::WithdrawDone { held } => {
                words[own(worker, DONE)] = self.begun as u64;
                (cleared(held), Note::Withdrew(self.begun))
            }
        };
        self.stage = stage;
        note
    }
}

pub fn cleared(level: u32) -> Stage {
    if level == 0 { Stage::Ready } else { Stage::Clear { level } }
}

