//! The same steps as `rme_bench steps` makes, by a plain program with no contract, for comparison.
//!
//! A worker that is up is a small stage and what it has read so far. Each call of `step` does one operation
//! on one word and answers what it brought about.

const WORKERS: usize = 8;
const CELLS: usize = 16;
const JOBS: u32 = 1000;
const LEAVES: usize = 8;
const HEIGHT: u32 = 3;

#[derive(Clone, Copy, PartialEq)]
enum Op {
    Get(u32),
    Set(u32, u64),
    Add(u32, u64),
    Copy(u32, u32),
    Swap(u32, u32),
}

#[derive(Clone, Copy)]
struct Script {
    ops: [Op; 8],
    n: u32,
}

#[derive(Clone, Copy)]
struct Receipt {
    worker: u32,
    lock: u32,
    number: u32,
    place: u32,
    reply: u64,
}

struct Entry {
    receipt: Receipt,
    script: Script,
}

#[derive(Clone, Copy, PartialEq)]
enum Refusal {
    NoWorker,
    Down,
    Busy,
    Idle,
}

#[derive(Clone, Copy)]
#[allow(dead_code)]
enum Note {
    Quiet,
    Asked(u32),
    Blocked,
    Entered(u32),
    Reentered(u32),
    Finished(Receipt),
    Left(u32),
    Ready,
    Withdrew(u32),
}

#[derive(Clone, Copy)]
#[allow(dead_code)]
enum Stage {
    Ready,
    LoadBegun,
    LoadDone,
    LoadLock { pending: bool },
    LoadPath { pending: bool, held: u32 },
    Post { stored: u32 },
    Climb { held: u32 },
    LoadTurn,
    LoadLen,
    LoadSlate { loaded: u32 },
    LoadCell { cell: u32 },
    StoreShadow { cell: u32 },
    StoreShadowReply,
    StoreMask,
    StoreTurn,
    LoadMask,
    LoadShadow { cell: u32 },
    StoreCell { cell: u32, value: u64 },
    LoadReply,
    StoreReply,
    StorePlace,
    StoreAt,
    StoreDone,
    LoadExitTurn,
    StoreExitTurn,
    Clear { level: u32 },
    WithdrawPlace { held: u32 },
    WithdrawAt { held: u32 },
    WithdrawReply { held: u32 },
    WithdrawDone { held: u32 },
}

/// A worker that is up: its stage, and what it knows there.
struct Up {
    stage: Stage,
    begun: u32,
    lock: u32,
    turn: u64,
    mask: u64,
    reply: u64,
    operations: u32,
    script: Script,
    words: [u64; 24],
    row: [u64; CELLS],
}

#[derive(Clone, Copy, Default)]
struct Counts {
    steps: [u32; 5],
}

struct World {
    words: Vec<u64>,
    ups: Vec<Option<Up>>,
    counts: Vec<Counts>,
    history: Vec<Entry>,
}

const BEGUN: usize = 0;
const DONE: usize = 1;
const REPLY: usize = 2;
const PLACE: usize = 3;
const AT: usize = 4;
const SLATE_LOCK: usize = 5;
const SLATE_LEN: usize = 6;
const SLATE: usize = 7;

fn own(worker: usize, offset: usize) -> usize {
    31 * worker + offset
}

fn of_lock(lock: u32, offset: usize) -> usize {
    31 * WORKERS + lock as usize * (LEAVES + 2 + 2 * CELLS) + offset
}

fn node(worker: usize, level: u32) -> usize {
    (LEAVES + worker) >> level
}

fn side(worker: usize, level: u32) -> u64 {
    1 + ((LEAVES + worker) >> (level - 1)) as u64 % 2
}

fn op_words(op: Op) -> [u64; 3] {
    match op {
        Op::Get(c) => [0, c as u64, 0],
        Op::Set(c, v) => [1, c as u64, v],
        Op::Add(c, v) => [2, c as u64, v],
        Op::Copy(a, b) => [3, a as u64, b as u64],
        Op::Swap(a, b) => [4, a as u64, b as u64],
    }
}

fn op_of(words: &[u64]) -> Op {
    let c = words[1] as u32;
    match words[0] {
        0 => Op::Get(c),
        1 => Op::Set(c, words[2]),
        2 => Op::Add(c, words[2]),
        3 => Op::Copy(c, words[2] as u32),
        _ => Op::Swap(c, words[2] as u32),
    }
}

fn script_of(n: u32, words: &[u64]) -> Script {
    let mut script = Script { ops: [Op::Get(0); 8], n };
    for i in 0..n as usize {
        script.ops[i] = op_of(&words[3 * i..3 * i + 3]);
    }
    script
}

fn named(script: &Script) -> u64 {
    let mut mask = 0;
    for op in &script.ops[..script.n as usize] {
        mask |= match *op {
            Op::Get(c) | Op::Set(c, _) | Op::Add(c, _) => 1 << c,
            Op::Copy(a, b) | Op::Swap(a, b) => 1 << a | 1 << b,
        };
    }
    mask
}

fn eval(script: &Script, row: &mut [u64; CELLS]) -> u64 {
    let mut reply = 0;
    for op in &script.ops[..script.n as usize] {
        reply = match *op {
            Op::Get(c) => row[c as usize],
            Op::Set(c, v) => {
                row[c as usize] = v;
                v
            }
            Op::Add(c, v) => {
                row[c as usize] = row[c as usize].wrapping_add(v);
                row[c as usize]
            }
            Op::Copy(a, b) => {
                row[b as usize] = row[a as usize];
                row[b as usize]
            }
            Op::Swap(a, b) => {
                row.swap(a as usize, b as usize);
                row[b as usize]
            }
        };
    }
    reply
}

fn next_cell(mask: u64, from: u32) -> Option<u32> {
    let rest = mask & (1 << CELLS) - 1 & !((1 << from) - 1);
    if rest == 0 { None } else { Some(rest.trailing_zeros()) }
}

/// The phase of a stage: Recover, Post, Enter, Section, Exit, or none when ready.
fn phase(stage: Stage) -> usize {
    use Stage::*;
    match stage {
        LoadBegun | LoadDone | LoadLock { .. } | LoadPath { .. } => 0,
        Post { .. } => 1,
        Climb { .. } => 2,
        LoadTurn | LoadLen | LoadSlate { .. } | LoadCell { .. } | StoreShadow { .. } => 3,
        StoreShadowReply | StoreMask | StoreTurn | LoadMask | LoadShadow { .. } => 3,
        StoreCell { .. } | LoadReply | StoreReply | StorePlace | StoreAt | StoreDone => 3,
        LoadExitTurn | StoreExitTurn | Clear { .. } | WithdrawPlace { .. } => 4,
        WithdrawAt { .. } | WithdrawReply { .. } | WithdrawDone { .. } => 4,
        Ready => 5,
    }
}

impl Up {
    fn new() -> Up {
        Up {
            stage: Stage::Ready,
            begun: 0,
            lock: 0,
            turn: 0,
            mask: 0,
            reply: 0,
            operations: 0,
            script: Script { ops: [Op::Get(0); 8], n: 0 },
            words: [0; 24],
            row: [0; CELLS],
        }
    }

    fn cells_from(&mut self, from: u32) -> Stage {
        match next_cell(self.mask, from) {
            Some(cell) => Stage::LoadCell { cell },
            None => {
                self.reply = eval(&self.script, &mut self.row);
                self.shadows_from(0)
            }
        }
    }

    fn shadows_from(&self, from: u32) -> Stage {
        match next_cell(self.mask, from) {
            Some(cell) => Stage::StoreShadow { cell },
            None => Stage::StoreShadowReply,
        }
    }

    fn copies_from(&self, from: u32) -> Stage {
        match next_cell(self.mask, from) {
            Some(cell) => Stage::LoadShadow { cell },
            None => Stage::LoadReply,
        }
    }

    fn slate_from(&mut self, loaded: u32) -> Stage {
        if loaded < 3 * self.operations {
            return Stage::LoadSlate { loaded };
        }
        self.script = script_of(self.operations, &self.words);
        self.mask = named(&self.script);
        self.row = [0; CELLS];
        self.cells_from(0)
    }

    /// One own step: one operation on one word.
    fn step(&mut self, words: &mut [u64], worker: usize) -> Note {
        let lock = self.lock;
        let (stage, note) = match self.stage {
            Stage::Ready => (Stage::Ready, Note::Quiet),
            Stage::LoadBegun => {
                self.begun = words[own(worker, BEGUN)] as u32;
                (Stage::LoadDone, Note::Quiet)
            }
            Stage::LoadDone => {
                let done = words[own(worker, DONE)];
                if self.begun == 0 {
                    (Stage::Ready, Note::Ready)
                } else {
                    (Stage::LoadLock { pending: done < self.begun as u64 }, Note::Quiet)
                }
            }
            Stage::LoadLock { pending } => {
                let from = if pending { SLATE_LOCK } else { AT };
                self.lock = words[own(worker, from)] as u32;
                (Stage::LoadPath { pending, held: 0 }, Note::Quiet)
            }
            Stage::LoadPath { pending, held } => {
                let found = words[of_lock(lock, node(worker, held + 1) - 1)];
                if found == side(worker, held + 1) {
                    if held + 1 < HEIGHT {
                        (Stage::LoadPath { pending, held: held + 1 }, Note::Quiet)
                    } else if pending {
                        (Stage::LoadTurn, Note::Reentered(lock))
                    } else {
                        (Stage::LoadExitTurn, Note::Reentered(lock))
                    }
                } else if pending {
                    (Stage::Climb { held }, Note::Quiet)
                } else if held == 0 {
                    (Stage::Ready, Note::Ready)
                } else {
                    (Stage::Clear { level: held }, Note::Quiet)
                }
            }
            Stage::Post { stored } => {
                if stored == 2 + 3 * self.script.n {
                    self.begun += 1;
                    words[own(worker, BEGUN)] = self.begun as u64;
                    (Stage::Climb { held: 0 }, Note::Asked(self.begun))
                } else {
                    match stored {
                        0 => words[own(worker, SLATE_LOCK)] = lock as u64,
                        1 => words[own(worker, SLATE_LEN)] = self.script.n as u64,
                        _ => {
                            let at = stored as usize - 2;
                            words[own(worker, SLATE + at)] =
                                op_words(self.script.ops[at / 3])[at % 3];
                        }
                    }
                    (Stage::Post { stored: stored + 1 }, Note::Quiet)
                }
            }
            Stage::Climb { held } => {
                let word = &mut words[of_lock(lock, node(worker, held + 1) - 1)];
                if *word != 0 {
                    (Stage::Climb { held }, Note::Blocked)
                } else {
                    *word = side(worker, held + 1);
                    if held + 1 == HEIGHT {
                        (Stage::LoadTurn, Note::Entered(lock))
                    } else {
                        (Stage::Climb { held: held + 1 }, Note::Quiet)
                    }
                }
            }
            Stage::LoadTurn => {
                self.turn = words[of_lock(lock, LEAVES - 1)];
                if self.turn % 2 == 0 {
                    (Stage::LoadLen, Note::Quiet)
                } else {
                    (Stage::LoadMask, Note::Quiet)
                }
            }
            Stage::LoadLen => {
                self.operations = words[own(worker, SLATE_LEN)] as u32;
                (self.slate_from(0), Note::Quiet)
            }
            Stage::LoadSlate { loaded } => {
                self.words[loaded as usize] = words[own(worker, SLATE + loaded as usize)];
                (self.slate_from(loaded + 1), Note::Quiet)
            }
            Stage::LoadCell { cell } => {
                self.row[cell as usize] = words[of_lock(lock, LEAVES + cell as usize)];
                (self.cells_from(cell + 1), Note::Quiet)
            }
            Stage::StoreShadow { cell } => {
                words[of_lock(lock, LEAVES + CELLS + cell as usize)] = self.row[cell as usize];
                (self.shadows_from(cell + 1), Note::Quiet)
            }
            Stage::StoreShadowReply => {
                words[of_lock(lock, LEAVES + 2 * CELLS)] = self.reply;
                (Stage::StoreMask, Note::Quiet)
            }
            Stage::StoreMask => {
                words[of_lock(lock, LEAVES + 1 + 2 * CELLS)] = self.mask;
                (Stage::StoreTurn, Note::Quiet)
            }
            Stage::StoreTurn => {
                words[of_lock(lock, LEAVES - 1)] = self.turn + 1;
                (Stage::LoadMask, Note::Quiet)
            }
            Stage::LoadMask => {
                self.mask = words[of_lock(lock, LEAVES + 1 + 2 * CELLS)];
                (self.copies_from(0), Note::Quiet)
            }
            Stage::LoadShadow { cell } => {
                let value = words[of_lock(lock, LEAVES + CELLS + cell as usize)];
                (Stage::StoreCell { cell, value }, Note::Quiet)
            }
            Stage::StoreCell { cell, value } => {
                words[of_lock(lock, LEAVES + cell as usize)] = value;
                (self.copies_from(cell + 1), Note::Quiet)
            }
            Stage::LoadReply => {
                self.reply = words[of_lock(lock, LEAVES + 2 * CELLS)];
                (Stage::StoreReply, Note::Quiet)
            }
            Stage::StoreReply => {
                words[own(worker, REPLY)] = self.reply;
                (Stage::StorePlace, Note::Quiet)
            }
            Stage::StorePlace => {
                words[own(worker, PLACE)] = self.turn / 2;
                (Stage::StoreAt, Note::Quiet)
            }
            Stage::StoreAt => {
                words[own(worker, AT)] = lock as u64;
                (Stage::StoreDone, Note::Quiet)
            }
            Stage::StoreDone => {
                words[own(worker, DONE)] = self.begun as u64;
                let receipt = Receipt {
                    worker: worker as u32,
                    lock,
                    number: self.begun,
                    place: (self.turn / 2) as u32,
                    reply: self.reply,
                };
                (Stage::LoadExitTurn, Note::Finished(receipt))
            }
            Stage::LoadExitTurn => {
                self.turn = words[of_lock(lock, LEAVES - 1)];
                if self.turn % 2 == 0 {
                    (Stage::Clear { level: HEIGHT }, Note::Quiet)
                } else {
                    (Stage::StoreExitTurn, Note::Quiet)
                }
            }
            Stage::StoreExitTurn => {
                words[of_lock(lock, LEAVES - 1)] = self.turn + 1;
                (Stage::Clear { level: HEIGHT }, Note::Quiet)
            }
            Stage::Clear { level } => {
                words[of_lock(lock, node(worker, level) - 1)] = 0;
                let note = if level == HEIGHT {
                    Note::Left(lock)
                } else if level == 1 {
                    Note::Ready
                } else {
                    Note::Quiet
                };
                (cleared(level - 1), note)
            }
            Stage::WithdrawPlace { held } => {
                words[own(worker, PLACE)] = u64::MAX;
                (Stage::WithdrawAt { held }, Note::Quiet)
            }
            Stage::WithdrawAt { held } => {
                words[own(worker, AT)] = lock as u64;
                (Stage::WithdrawReply { held }, Note::Quiet)
            }
            Stage::WithdrawReply { held } => {
                words[own(worker, REPLY)] = 0;
                (Stage::WithdrawDone { held }, Note::Quiet)
            }
            Stage::WithdrawDone { held } => {
                words[own(worker, DONE)] = self.begun as u64;
                (cleared(held), Note::Withdrew(self.begun))
            }
        };
        self.stage = stage;
        note
    }
}

fn cleared(level: u32) -> Stage {
    if level == 0 { Stage::Ready } else { Stage::Clear { level } }
}

impl World {
    fn new() -> World {
        World {
            words: vec![0; 31 * WORKERS + LEAVES + 2 + 2 * CELLS],
            ups: (0..WORKERS).map(|_| Some(Up::new())).collect(),
            counts: vec![Counts::default(); WORKERS],
            history: Vec::new(),
        }
    }

    fn submit(&mut self, worker: usize, lock: u32, script: Script) -> Result<u32, Refusal> {
        let up = match self.ups.get_mut(worker) {
            None => return Err(Refusal::NoWorker),
            Some(None) => return Err(Refusal::Down),
            Some(Some(up)) => up,
        };
        let Stage::Ready = up.stage else {
            return Err(Refusal::Busy);
        };
        self.history.reserve(WORKERS);
        up.lock = lock;
        up.script = script;
        up.stage = Stage::Post { stored: 0 };
        self.counts[worker].steps[1] = 0;
        Ok(up.begun + 1)
    }

    #[inline(never)]
    fn step(&mut self, worker: usize) -> Result<Note, Refusal> {
        let up = match self.ups.get_mut(worker) {
            None => return Err(Refusal::NoWorker),
            Some(None) => return Err(Refusal::Down),
            Some(Some(up)) => up,
        };
        if let Stage::Ready = up.stage {
            return Err(Refusal::Idle);
        }
        let before = phase(up.stage);
        let note = up.step(&mut self.words, worker);
        let after = phase(up.stage);
        if let Note::Finished(receipt) = note {
            let n = self.words[own(worker, SLATE_LEN)] as u32;
            let slate = &self.words[own(worker, SLATE)..own(worker, SLATE) + 24];
            self.history.push(Entry { receipt, script: script_of(n, slate) });
        }
        if !matches!(note, Note::Blocked) {
            let steps = &mut self.counts[worker].steps;
            steps[before] += 1;
            if after != before && after < 5 {
                steps[after] = 0;
            }
        }
        Ok(note)
    }
}

fn main() {
    let mut args = std::env::args().skip(1).map(|word| word.parse::<u64>().unwrap_or(1));
    let worlds = args.next().unwrap_or(1);
    let operations = args.next().unwrap_or(1);
    let mut script = Script { ops: [Op::Get(0); 8], n: 0 };
    if operations == 8 {
        for k in 0..8 {
            let (a, b) = (2 * k, 2 * k + 1);
            script.ops[k as usize] = if k % 2 == 0 { Op::Swap(a, b) } else { Op::Copy(a, b) };
        }
        script.n = 8;
    }
    let (mut steps, mut sum) = (0u64, 0u64);
    for _ in 0..worlds {
        let mut world = World::new();
        for number in 0..JOBS {
            let worker = number as usize % WORKERS;
            assert!(world.submit(worker, 0, script).is_ok());
            loop {
                let Ok(note) = world.step(worker) else { unreachable!() };
                steps += 1;
                match note {
                    Note::Finished(receipt) => sum += receipt.reply + u64::from(receipt.place),
                    Note::Ready => break,
                    _ => {}
                }
            }
        }
        std::hint::black_box(&world.history);
        std::hint::black_box(&world.counts);
    }
    println!("steps={steps} sum={sum}");
}
