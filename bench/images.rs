//! A plain program that loads a saved world and saves it again, for bench/images: the same bytes, the same clauses, the
//! same care with the file. `images IN [OUT]`.

use std::fs::{self, File};
use std::io::Write;
use std::path::Path;
use std::process::exit;

const WORKER_WORDS: usize = 31;
const WITHDRAWN: u64 = u64::MAX;

#[derive(Clone, Copy)]
struct Op {
    kind: u8,
    first: u8,
    second: u64,
}

struct Entry {
    worker: u16,
    number: u32,
    lock: u8,
    place: u32,
    reply: u64,
    script: Vec<Op>,
}

struct World {
    workers: usize,
    locks: usize,
    cells: usize,
    jobs: u32,
    leaves: usize,
    words: Vec<u64>,
    entries: Vec<Entry>,
}

/// What is left of the bytes.
struct Bytes<'a>(&'a [u8]);

impl Bytes<'_> {
    fn number(&mut self, size: usize) -> Option<u64> {
        if self.0.len() < size {
            return None;
        }
        let (taken, rest) = self.0.split_at(size);
        self.0 = rest;
        Some(taken.iter().fold(0, |value, byte| value << 8 | u64::from(*byte)))
    }
}

fn is_op(op: &Op, cells: usize) -> bool {
    let is_cell = |number: u64| number < cells as u64;
    is_cell(u64::from(op.first))
        && match op.kind {
            0 => op.second == 0,
            1 | 2 => true,
            3 | 4 => is_cell(op.second),
            _ => false,
        }
}

fn eval(script: &[Op], row: &mut [u64]) -> u64 {
    let mut reply = 0;
    for op in script {
        let (first, second) = (op.first as usize, op.second as usize);
        match op.kind {
            0 => {}
            1 => row[first] = op.second,
            2 => row[first] = row[first].wrapping_add(op.second),
            3 => row[second] = row[first],
            _ => row.swap(first, second),
        }
        reply = if op.kind < 3 { row[first] } else { row[second] };
    }
    reply
}

/// The cells that a script names, as a mask.
fn named(script: &[Op]) -> u64 {
    script.iter().fold(0, |mask, op| {
        mask | 1 << op.first | if op.kind > 2 { 1 << op.second } else { 0 }
    })
}

fn entry(bytes: &mut Bytes) -> Option<Entry> {
    let mut entry = Entry {
        worker: bytes.number(2)? as u16,
        number: bytes.number(4)? as u32,
        lock: bytes.number(1)? as u8,
        place: bytes.number(4)? as u32,
        reply: bytes.number(8)?,
        script: Vec::new(),
    };
    for _ in 0..bytes.number(1)? {
        entry.script.push(Op {
            kind: bytes.number(1)? as u8,
            first: bytes.number(1)? as u8,
            second: bytes.number(8)?,
        });
    }
    Some(entry)
}

fn parse(held: &[u8]) -> Option<World> {
    let mut bytes = Bytes(held);
    if bytes.number(5)? != 0x52_4d45_4902 {
        return None;
    }
    let (workers, locks, cells) = (bytes.number(2)? as usize, bytes.number(1)? as usize, bytes.number(1)? as usize);
    let jobs = bytes.number(4)? as u32;
    let within = (1..=256).contains(&workers) && (1..=16).contains(&locks) && (1..=16).contains(&cells);
    if !within || !(1..=1_000_000).contains(&jobs) {
        return None;
    }
    let leaves = workers.next_power_of_two().max(2);
    let count = WORKER_WORDS * workers + locks * (leaves + 2 + 2 * cells);
    let words = (0..count).map(|_| bytes.number(8)).collect::<Option<Vec<u64>>>()?;
    let count = bytes.number(4)?;
    let mut entries = Vec::new();
    for _ in 0..count {
        entries.push(entry(&mut bytes)?);
    }
    bytes.0.is_empty().then_some(World { workers, locks, cells, jobs, leaves, words, entries })
}

/// What the entries leave: of each lock its count, its row and the row before its last one; of each worker its last one.
struct Folded<'a> {
    counts: Vec<u32>,
    rows: Vec<Vec<u64>>,
    before: Vec<Vec<u64>>,
    last_at: Vec<Option<&'a Entry>>,
    last_by: Vec<Option<&'a Entry>>,
}

fn fold(world: &World) -> Option<Folded<'_>> {
    let zeros = vec![vec![0; world.cells]; world.locks];
    let mut folded = Folded {
        counts: vec![0; world.locks],
        rows: zeros.clone(),
        before: zeros,
        last_at: vec![None; world.locks],
        last_by: vec![None; world.workers],
    };
    for entry in &world.entries {
        let (worker, lock) = (usize::from(entry.worker), usize::from(entry.lock));
        if worker >= world.workers || lock >= world.locks || entry.script.len() > 8 {
            return None;
        }
        if !entry.script.iter().all(|op| is_op(op, world.cells)) || entry.place != folded.counts[lock] {
            return None;
        }
        if entry.number <= folded.last_by[worker].map_or(0, |last| last.number) {
            return None;
        }
        let (row, before) = (&mut folded.rows[lock], &mut folded.before[lock]);
        before.copy_from_slice(row);
        if eval(&entry.script, row) != entry.reply {
            return None;
        }
        folded.counts[lock] += 1;
        folded.last_at[lock] = Some(entry);
        folded.last_by[worker] = Some(entry);
    }
    Some(folded)
}

impl World {
    fn own(&self, worker: usize) -> &[u64] {
        &self.words[WORKER_WORDS * worker..WORKER_WORDS * (worker + 1)]
    }

    fn lock(&self, lock: usize) -> &[u64] {
        let size = self.leaves + 2 + 2 * self.cells;
        let first = WORKER_WORDS * self.workers + size * lock;
        &self.words[first..first + size]
    }

    /// The worker down the sides of a node that is not 0, where each node on the way is so.
    fn holder(&self, nodes: &[u64], mut node: usize) -> Option<usize> {
        while node < self.leaves {
            node = match nodes[node - 1] {
                1 => 2 * node,
                2 => 2 * node + 1,
                _ => return None,
            };
        }
        let worker = node - self.leaves;
        (worker < self.workers).then_some(worker)
    }

    /// The lock in which each worker holds nodes, and the owner of each lock.
    fn holders(&self) -> Option<(Vec<Option<usize>>, Vec<Option<usize>>)> {
        let mut held = vec![None; self.workers];
        let mut owners = vec![None; self.locks];
        for lock in 0..self.locks {
            let nodes = &self.lock(lock)[..self.leaves - 1];
            for node in (1..self.leaves).filter(|node| nodes[node - 1] != 0) {
                let worker = self.holder(nodes, node)?;
                if held[worker].is_some_and(|other| other != lock) {
                    return None;
                }
                held[worker] = Some(lock);
                if node == 1 {
                    owners[lock] = Some(worker);
                }
            }
        }
        Some((held, owners))
    }

    /// The script of a worker's slate.
    fn slate(&self, worker: usize) -> Option<Vec<Op>> {
        let own = self.own(worker);
        if own[6] > 8 {
            return None;
        }
        let triples = own[7..].chunks(3).take(own[6] as usize);
        let script = triples.map(|words| {
            let op = Op { kind: u8::try_from(words[0]).ok()?, first: u8::try_from(words[1]).ok()?, second: words[2] };
            is_op(&op, self.cells).then_some(op)
        });
        script.collect()
    }

    fn is_good_worker(&self, worker: usize, held: Option<usize>, last: Option<&Entry>) -> bool {
        let own = self.own(worker);
        let (begun, done, reply, place, at) = (own[0], own[1], own[2], own[3], own[4]);
        let last_number = last.map_or(0, |last| u64::from(last.number));
        if done > begun || begun > done + 1 || begun > u64::from(self.jobs) || last_number > done {
            return false;
        }
        let site = if done == begun { at } else { own[5] };
        if held.is_some_and(|lock| begun == 0 || site != lock as u64) {
            return false;
        }
        if done < begun {
            return own[5] < self.locks as u64 && self.slate(worker).is_some()
                && (begun > 0 || (reply, place, at) == (0, 0, 0));
        }
        if begun == 0 {
            return (reply, place, at) == (0, 0, 0);
        }
        if place == WITHDRAWN {
            return last_number != done && reply == 0 && at < self.locks as u64;
        }
        last.is_some_and(|last| {
            last_number == done && (last.reply, u64::from(last.place), u64::from(last.lock)) == (reply, place, at)
        })
    }

    /// Whether mask, shadow words and reply are those of a script on a row.
    fn is_shadow(&self, words: &[u64], script: &[Op], row: &[u64]) -> bool {
        let (m, c) = (self.leaves, self.cells);
        let mask = words[m + 1 + 2 * c];
        let mut after = row.to_vec();
        let reply = eval(script, &mut after);
        mask >> c == 0
            && named(script) & !mask == 0
            && (0..c).all(|cell| mask >> cell & 1 == 0 || words[m + c + cell] == after[cell])
            && words[m + 2 * c] == reply
    }

    fn is_good_lock(&self, lock: usize, owner: Option<usize>, folded: &Folded) -> bool {
        let (words, count, row) = (self.lock(lock), u64::from(folded.counts[lock]), &folded.rows[lock]);
        let (turn, cells) = (words[self.leaves - 1], &words[self.leaves..self.leaves + self.cells]);
        let Some(worker) = owner else {
            return turn == 2 * count && cells == row;
        };
        let own = self.own(worker);
        if own[1] < own[0] {
            if turn == 2 * count {
                return cells == row;
            }
            let Some(script) = self.slate(worker) else { return false };
            let mut after = row.clone();
            eval(&script, &mut after);
            return turn == 2 * count + 1
                && self.is_shadow(words, &script, row)
                && (0..self.cells).all(|cell| cells[cell] == row[cell] || cells[cell] == after[cell]);
        }
        let Some(last) = folded.last_at[lock] else { return false };
        let is_own = usize::from(last.worker) == worker && u64::from(last.number) == own[1];
        let odd = turn + 1 == 2 * count && self.is_shadow(words, &last.script, &folded.before[lock]);
        is_own && cells == row && (turn == 2 * count || odd)
    }

    fn is_good(&self) -> bool {
        let (Some(folded), Some((held, owners))) = (fold(self), self.holders()) else {
            return false;
        };
        (0..self.workers).all(|worker| self.is_good_worker(worker, held[worker], folded.last_by[worker]))
            && (0..self.locks).all(|lock| self.is_good_lock(lock, owners[lock], &folded))
    }

    fn image(&self) -> Vec<u8> {
        let operations: usize = self.entries.iter().map(|entry| entry.script.len()).sum();
        let mut image = Vec::with_capacity(17 + 8 * self.words.len() + 20 * self.entries.len() + 10 * operations);
        image.extend_from_slice(b"RMEI\x02");
        image.extend_from_slice(&(self.workers as u16).to_be_bytes());
        image.extend_from_slice(&[self.locks as u8, self.cells as u8]);
        image.extend_from_slice(&self.jobs.to_be_bytes());
        for word in &self.words {
            image.extend_from_slice(&word.to_be_bytes());
        }
        image.extend_from_slice(&(self.entries.len() as u32).to_be_bytes());
        for entry in &self.entries {
            image.extend_from_slice(&entry.worker.to_be_bytes());
            image.extend_from_slice(&entry.number.to_be_bytes());
            image.push(entry.lock);
            image.extend_from_slice(&entry.place.to_be_bytes());
            image.extend_from_slice(&entry.reply.to_be_bytes());
            image.push(entry.script.len() as u8);
            for op in &entry.script {
                image.extend_from_slice(&[op.kind, op.first]);
                image.extend_from_slice(&op.second.to_be_bytes());
            }
        }
        image
    }
}

/// Puts bytes in a file's place by way of a new one.
fn replace(file: &str, bytes: &[u8]) -> std::io::Result<()> {
    let unfinished = format!("{file}.new");
    let mut written = File::create(&unfinished)?;
    written.write_all(bytes)?;
    written.sync_all()?;
    fs::rename(&unfinished, file)?;
    let folder = match Path::new(file).parent() {
        Some(parent) if parent != Path::new("") => parent,
        _ => Path::new("."),
    };
    File::open(folder)?.sync_all()
}

fn main() {
    let words: Vec<String> = std::env::args().collect();
    let held = fs::read(&words[1]).unwrap();
    let Some(world) = parse(&held).filter(World::is_good) else {
        println!("bad");
        exit(2);
    };
    drop(held);
    if let Some(file) = words.get(2) {
        replace(file, &world.image()).unwrap();
    }
}
