//! The same work as `rme check`, by a plain program with no contract, for comparison: a transcript in, each line read
//! by serde_json into a value and held to the abstract machine, and one verdict out.

use serde_json::{Map, Value};
use std::io::{self, BufRead, BufReader};

const LINE_LIMIT: usize = 65_536;

/// An operation of a script, with its operands.
#[derive(Clone, Copy)]
enum Op {
    Get(usize),
    Set(usize, u64),
    Add(usize, u64),
    Copy(usize, usize),
    Swap(usize, usize),
}

#[derive(Clone)]
struct Job {
    lock: usize,
    script: Vec<Op>,
}

#[derive(Clone)]
enum Stance {
    Idle,
    Handed(Job),
    Waiting(Job),
    Inside(Job),
    Finished(usize),
}

struct Worker {
    up: bool,
    entered: bool,
    asked: u64,
    withdrawn: Vec<u64>,
    stance: Stance,
}

/// A finished section, kept as the checker keeps it.
#[allow(dead_code)]
struct Entry {
    worker: usize,
    number: u64,
    place: u64,
    reply: u64,
    job: Job,
}

struct Machine {
    names: Vec<String>,
    cells: usize,
    jobs: u64,
    owners: Vec<Option<usize>>,
    rows: Vec<Vec<u64>>,
    places: Vec<u64>,
    workers: Vec<Worker>,
    history: Vec<Entry>,
}

enum Found {
    Step,
    NoStep,
    NoEvent,
}

fn small(value: Option<&Value>) -> Option<u64> {
    value?.as_u64().filter(|number| *number <= u64::from(u32::MAX))
}

fn op_of(value: &Value) -> Option<Op> {
    let items = value.as_array()?;
    let kind = items.first()?.as_str()?;
    let first = small(items.get(1))? as usize;
    let number = items.get(2).and_then(Value::as_u64);
    let cell = small(items.get(2)).map(|cell| cell as usize);
    match (kind, items.len()) {
        ("get", 2) => Some(Op::Get(first)),
        ("set", 3) => Some(Op::Set(first, number?)),
        ("add", 3) => Some(Op::Add(first, number?)),
        ("copy", 3) => Some(Op::Copy(first, cell?)),
        ("swap", 3) => Some(Op::Swap(first, cell?)),
        _ => None,
    }
}

fn fits(op: &Op, cells: usize) -> bool {
    match *op {
        Op::Get(cell) | Op::Set(cell, _) | Op::Add(cell, _) => cell < cells,
        Op::Copy(from, to) | Op::Swap(from, to) => from < cells && to < cells,
    }
}

fn run(script: &[Op], row: &mut [u64]) -> u64 {
    script.iter().fold(0, |_, op| match *op {
        Op::Get(cell) => row[cell],
        Op::Set(cell, value) => {
            row[cell] = value;
            value
        }
        Op::Add(cell, value) => {
            row[cell] = row[cell].wrapping_add(value);
            row[cell]
        }
        Op::Copy(from, to) => {
            row[to] = row[from];
            row[to]
        }
        Op::Swap(from, to) => {
            row.swap(from, to);
            row[to]
        }
    })
}

impl Machine {
    fn open(value: &Value) -> Option<Machine> {
        let map = value.as_object()?;
        if map.get("do")?.as_str()? != "open" || map.len() != 5 {
            return None;
        }
        let workers = small(map.get("workers")).filter(|count| (1..=256).contains(count))?;
        let cells = small(map.get("cells")).filter(|count| (1..=16).contains(count))? as usize;
        let jobs = small(map.get("jobs")).filter(|count| (1..=1_000_000).contains(count))?;
        let given = map.get("locks")?.as_array()?;
        let names: Option<Vec<String>> = given.iter().map(|name| Some(name.as_str()?.to_string())).collect();
        let names = names.filter(|names| (1..=16).contains(&names.len()))?;
        let worker = || Worker { up: true, entered: false, asked: 0, withdrawn: Vec::new(), stance: Stance::Idle };
        Some(Machine {
            cells,
            jobs,
            owners: vec![None; names.len()],
            rows: vec![vec![0; cells]; names.len()],
            places: vec![0; names.len()],
            workers: (0..workers).map(|_| worker()).collect(),
            history: Vec::new(),
            names,
        })
    }

    fn lock(&self, value: Option<&Value>) -> Option<usize> {
        let name = value?.as_str()?;
        self.names.iter().position(|other| other == name)
    }

    fn find(&mut self, value: &Value) -> Found {
        match self.event(value) {
            None => Found::NoEvent,
            Some(false) => Found::NoStep,
            Some(true) => Found::Step,
        }
    }

    /// Whether the machine has the step of this event line, which it takes; none where it is no event line.
    fn event(&mut self, value: &Value) -> Option<bool> {
        let map = value.as_object()?;
        let worker = small(map.get("worker"))? as usize;
        match (map.get("do")?.as_str()?, map.len()) {
            ("submit", 5) => self.submit(worker, map),
            ("note", 3) => self.note(worker, map.get("note")?.as_array()?),
            ("crash", 2) => Some(self.crash(worker)),
            ("restart", 2) => Some(self.restart(worker)),
            ("withdraw", 2) => Some(self.up(worker).is_some_and(|me| matches!(me.stance, Stance::Waiting(_)))),
            _ => None,
        }
    }

    fn up(&mut self, worker: usize) -> Option<&mut Worker> {
        self.workers.get_mut(worker).filter(|me| me.up)
    }

    fn submit(&mut self, worker: usize, map: &Map<String, Value>) -> Option<bool> {
        let number = small(map.get("number"))?;
        let lock = self.lock(map.get("lock"))?;
        let script: Option<Vec<Op>> = map.get("script")?.as_array()?.iter().map(op_of).collect();
        let script = script?;
        let (cells, jobs) = (self.cells, self.jobs);
        let Some(me) = self.up(worker) else { return Some(false) };
        let is_good = script.len() <= 8 && script.iter().all(|op| fits(op, cells));
        if !matches!(me.stance, Stance::Idle) || number != me.asked + 1 || me.asked >= jobs || !is_good {
            return Some(false);
        }
        me.stance = Stance::Handed(Job { lock, script });
        Some(true)
    }

    fn crash(&mut self, worker: usize) -> bool {
        let Some(me) = self.up(worker) else { return false };
        (me.up, me.entered) = (false, false);
        if let Stance::Handed(_) = me.stance {
            me.stance = Stance::Idle;
        }
        true
    }

    fn restart(&mut self, worker: usize) -> bool {
        match self.workers.get_mut(worker) {
            Some(me) if !me.up => {
                me.up = true;
                true
            }
            _ => false,
        }
    }

    fn note(&mut self, worker: usize, note: &[Value]) -> Option<bool> {
        let number = small(note.get(1));
        let lock = self.lock(note.get(1));
        match (note.first()?.as_str()?, note.len()) {
            ("quiet" | "ready", 1) => Some(self.up(worker).is_some()),
            ("blocked", 1) => Some(self.up(worker).is_some_and(|me| matches!(me.stance, Stance::Waiting(_)))),
            ("asked", 2) => Some(self.asked(worker, number?)),
            ("withdrew", 2) => Some(self.withdrew(worker, number?)),
            ("entered", 2) => Some(self.entered(worker, lock?)),
            ("reentered", 2) => Some(self.reentered(worker, lock?)),
            ("left", 2) => Some(self.left(worker, lock?)),
            ("finished", 5) => Some(self.finished(worker, (lock?, small(note.get(2))?, small(note.get(3))?, note.get(4)?.as_u64()?))),
            _ => None,
        }
    }

    fn asked(&mut self, worker: usize, number: u64) -> bool {
        let Some(me) = self.up(worker) else { return false };
        match &me.stance {
            Stance::Handed(job) if number == me.asked + 1 => {
                me.stance = Stance::Waiting(job.clone());
                me.asked = number;
                true
            }
            _ => false,
        }
    }

    fn withdrew(&mut self, worker: usize, number: u64) -> bool {
        let Some(me) = self.up(worker) else { return false };
        if !matches!(me.stance, Stance::Waiting(_)) || number != me.asked {
            return false;
        }
        me.stance = Stance::Idle;
        me.withdrawn.push(number);
        true
    }

    fn entered(&mut self, worker: usize, lock: usize) -> bool {
        let is_free = self.owners[lock].is_none();
        let Some(me) = self.up(worker) else { return false };
        match &me.stance {
            Stance::Waiting(job) if is_free && job.lock == lock => {
                me.stance = Stance::Inside(job.clone());
                me.entered = true;
                self.owners[lock] = Some(worker);
                true
            }
            _ => false,
        }
    }

    fn reentered(&mut self, worker: usize, lock: usize) -> bool {
        let Some(me) = self.up(worker) else { return false };
        let stays = match &me.stance {
            Stance::Inside(job) => job.lock == lock,
            Stance::Finished(held) => *held == lock,
            _ => false,
        };
        let takes = stays && !me.entered;
        me.entered |= takes;
        takes
    }

    fn finished(&mut self, worker: usize, told: (usize, u64, u64, u64)) -> bool {
        let (lock, number, place, reply) = told;
        let (expected, mut row) = (self.places[lock], self.rows[lock].clone());
        let Some(me) = self.up(worker) else { return false };
        let Stance::Inside(job) = &me.stance else { return false };
        if !me.entered || job.lock != lock || number != me.asked || place != expected || run(&job.script, &mut row) != reply {
            return false;
        }
        let job = job.clone();
        me.stance = Stance::Finished(lock);
        self.rows[lock] = row;
        self.places[lock] += 1;
        self.history.push(Entry { worker, number, place, reply, job });
        true
    }

    fn left(&mut self, worker: usize, lock: usize) -> bool {
        let Some(me) = self.up(worker) else { return false };
        if !me.entered || !matches!(me.stance, Stance::Finished(held) if held == lock) {
            return false;
        }
        (me.stance, me.entered) = (Stance::Idle, false);
        self.owners[lock] = None;
        true
    }
}

fn read(line: &[u8]) -> Option<Value> {
    serde_json::from_slice(line).ok().filter(|_| line.len() <= LINE_LIMIT)
}

fn verdict() -> io::Result<String> {
    let mut reader = BufReader::with_capacity(65_536, io::stdin().lock());
    let mut line = Vec::new();
    let mut machine = None;
    for number in 1u64.. {
        line.clear();
        if reader.read_until(b'\n', &mut line)? == 0 {
            return Ok(if number == 1 { "bad 1".into() } else { "yes".into() });
        }
        if line.last() == Some(&b'\n') {
            line.pop();
        }
        let Some(value) = read(&line) else { return Ok(format!("bad {number}")) };
        let Some(opened) = &mut machine else {
            machine = Machine::open(&value);
            if machine.is_none() {
                return Ok("bad 1".into());
            }
            continue;
        };
        match opened.find(&value) {
            Found::Step => {}
            Found::NoStep => return Ok(format!("no {number}")),
            Found::NoEvent => return Ok(format!("bad {number}")),
        }
    }
    unreachable!()
}

fn main() -> io::Result<()> {
    println!("{}", verdict()?);
    Ok(())
}
