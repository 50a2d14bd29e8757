//! A world of workers and locks, what lines ask of it, and what they are answered.

use crate::steps::*;
use serde_json::{Map, Value};
use std::io::Write;

/// The refusals that a line of a world may have, by their numbers.
#[derive(Clone, Copy, Debug, PartialEq)]
pub enum Refusal {
    BadLine = 1,
    LineTooLong = 2,
    NotOpen = 3,
    AlreadyOpen = 4,
    BadShape = 5,
    NoWorker = 6,
    Down = 7,
    Up = 8,
    Busy = 9,
    Idle = 10,
    NoLock = 11,
    BadScript = 12,
    NoCell = 13,
    TooManyJobs = 14,
    NotWaiting = 21,
}

pub struct World {
    shape: Shape,
    names: Vec<String>,
    words: Vec<u64>,
    ups: Vec<Option<Up>>,
    counts: Vec<Counts>,
    most: [u32; 5],
    history: Vec<Entry>,
}

impl World {
    fn new(shape: Shape, names: Vec<String>) -> World {
        World {
            shape,
            names,
            words: vec![0; 31 * shape.workers + shape.locks * (shape.leaves + 2 + 2 * shape.cells)],
            ups: (0..shape.workers).map(|_| Some(Up::new())).collect(),
            counts: vec![Counts::default(); shape.workers],
            most: [0; 5],
            history: Vec::new(),
        }
    }

    fn up(&mut self, worker: u32) -> Result<&mut Up, Refusal> {
        match self.ups.get_mut(worker as usize) {
            None => Err(Refusal::NoWorker),
            Some(None) => Err(Refusal::Down),
            Some(Some(up)) => Ok(up),
        }
    }

    fn submit(&mut self, worker: u32, lock: u32, script: Script) -> Result<u32, Refusal> {
        let shape = self.shape;
        let workers = shape.workers;
        let up = self.up(worker)?;
        let Stage::Ready = up.stage else {
            return Err(Refusal::Busy);
        };
        if lock as usize >= shape.locks {
            return Err(Refusal::NoLock);
        }
        if script.n > 8 {
            return Err(Refusal::BadScript);
        }
        if script.ops[..script.n as usize].iter().any(|op| op.most_cell() as usize >= shape.cells) {
            return Err(Refusal::NoCell);
        }
        if up.begun >= shape.jobs {
            return Err(Refusal::TooManyJobs);
        }
        up.lock = lock;
        up.script = script;
        up.stage = Stage::Post { stored: 0 };
        let number = up.begun + 1;
        self.history.reserve(workers);
        self.counts[worker as usize].steps[1] = 0;
        Ok(number)
    }

    fn step(&mut self, worker: u32) -> Result<Note, Refusal> {
        let shape = self.shape;
        let index = worker as usize;
        let up = match self.ups.get_mut(index) {
            None => return Err(Refusal::NoWorker),
            Some(None) => return Err(Refusal::Down),
            Some(Some(up)) => up,
        };
        if let Stage::Ready = up.stage {
            return Err(Refusal::Idle);
        }
        let before = phase(up.stage);
        let note = up.step(shape, &mut self.words, index);
        let after = phase(up.stage);
        if let Note::Finished(receipt) = note {
            let n = self.words[own(index, SLATE_LEN)] as u32;
            let slate = &self.words[own(index, SLATE)..own(index, SLATE) + 24];
            self.history.push(Entry { receipt, script: script_of(n, slate) });
        }
        let steps = &mut self.counts[index].steps;
        if !matches!(note, Note::Blocked) {
            steps[before] += 1;
            if after != before && after < 5 {
                steps[after] = 0;
            }
        }
        self.most[before] = self.most[before].max(steps[before]);
        Ok(note)
    }

    fn crash(&mut self, worker: u32) -> Result<(), Refusal> {
        self.up(worker)?;
        self.ups[worker as usize] = None;
        Ok(())
    }

    fn restart(&mut self, worker: u32) -> Result<(), Refusal> {
        match self.ups.get_mut(worker as usize) {
            None => Err(Refusal::NoWorker),
            Some(Some(_)) => Err(Refusal::Up),
            Some(place) => {
                let mut up = Up::new();
                up.stage = Stage::LoadBegun;
                *place = Some(up);
                self.counts[worker as usize] = Counts::default();
                Ok(())
            }
        }
    }

    fn withdraw(&mut self, worker: u32) -> Result<(), Refusal> {
        let up = self.up(worker)?;
        let Stage::Climb { held } = up.stage else {
            return Err(Refusal::NotWaiting);
        };
        up.stage = Stage::WithdrawPlace { held };
        self.counts[worker as usize].steps[4] = 0;
        Ok(())
    }

    fn owner(&self, lock: u32) -> Result<Option<usize>, Refusal> {
        if lock as usize >= self.shape.locks {
            return Err(Refusal::NoLock);
        }
        let mut at = 1;
        while at < self.shape.leaves {
            match self.words[of_lock(self.shape, lock, at - 1)] {
                1 => at *= 2,
                2 => at = 2 * at + 1,
                _ => return Ok(None),
            }
        }
        let worker = at - self.shape.leaves;
        Ok((worker < self.shape.workers).then_some(worker))
    }

    fn settled(&self, owner: Option<usize>) -> bool {
        owner.is_none_or(|worker| self.words[own(worker, DONE)] == self.words[own(worker, BEGUN)])
    }

    fn last(&self, worker: u32) -> Result<Option<Receipt>, Refusal> {
        let index = worker as usize;
        if index >= self.shape.workers {
            return Err(Refusal::NoWorker);
        }
        let word = |offset| self.words[own(index, offset)];
        if word(DONE) == 0 || word(DONE) != word(BEGUN) || word(PLACE) == u64::MAX {
            return Ok(None);
        }
        Ok(Some(Receipt {
            worker,
            lock: word(AT) as u32,
            number: word(DONE) as u32,
            place: word(PLACE) as u32,
            reply: word(REPLY),
        }))
    }
}

// ---- what a line asks for

type Members = Map<String, Value>;

fn small(value: Option<&Value>) -> Option<u32> {
    u32::try_from(value?.as_u64()?).ok()
}

fn op_in(value: &Value) -> Option<Op> {
    let items = value.as_array()?;
    let first = small(items.get(1))?;
    let second = items.get(2);
    match (items.first()?.as_str()?, items.len()) {
        ("get", 2) => Some(Op::Get(first)),
        ("set", 3) => Some(Op::Set(first, second?.as_u64()?)),
        ("add", 3) => Some(Op::Add(first, second?.as_u64()?)),
        ("copy", 3) => Some(Op::Copy(first, small(second)?)),
        ("swap", 3) => Some(Op::Swap(first, small(second)?)),
        _ => None,
    }
}

fn script_in(value: &Value) -> Option<Script> {
    let mut script = Script { ops: [Op::Get(0); 8], n: 0 };
    for item in value.as_array()? {
        let op = op_in(item)?;
        if script.n < 8 {
            script.ops[script.n as usize] = op;
        }
        script.n = (script.n + 1).min(9);
    }
    Some(script)
}

fn is_name(name: &str) -> bool {
    let is_byte = |b: u8| matches!(b, b'a'..=b'z' | b'0'..=b'9' | b'_' | b'-');
    (1..=32).contains(&name.len()) && name.bytes().all(is_byte)
}

fn opened(members: &Members) -> Result<World, Refusal> {
    let number = |key| small(members.get(key)).ok_or(Refusal::BadLine);
    let (workers, cells, jobs) = (number("workers")?, number("cells")?, number("jobs")?);
    let locks = members.get("locks").and_then(Value::as_array).ok_or(Refusal::BadLine)?;
    let mut names: Vec<String> = Vec::new();
    let mut good = true;
    for lock in locks {
        let name = lock.as_str().ok_or(Refusal::BadLine)?;
        good &= is_name(name) && !names.iter().any(|other| other == name);
        names.push(name.to_string());
    }
    good &= (1..=256).contains(&workers) && (1..=16).contains(&names.len());
    good &= (1..=16).contains(&cells) && (1..=1_000_000).contains(&jobs);
    if members.len() != 5 {
        return Err(Refusal::BadLine);
    }
    if !good {
        return Err(Refusal::BadShape);
    }
    let leaves = (workers as usize).max(2).next_power_of_two();
    let shape = Shape {
        workers: workers as usize,
        locks: names.len(),
        cells: cells as usize,
        jobs,
        leaves,
        height: leaves.trailing_zeros(),
    };
    Ok(World::new(shape, names))
}

/// The kind of a note that may end a walk.
fn kind(note: Note) -> Option<&'static str> {
    match note {
        Note::Quiet | Note::Blocked => None,
        Note::Asked(_) => Some("asked"),
        Note::Entered(_) => Some("entered"),
        Note::Reentered(_) => Some("reentered"),
        Note::Finished(_) => Some("finished"),
        Note::Left(_) => Some("left"),
        Note::Ready => Some("ready"),
        Note::Withdrew(_) => Some("withdrew"),
    }
}

const KINDS: [&str; 7] = ["asked", "entered", "reentered", "finished", "left", "ready", "withdrew"];

// ---- what it is answered

fn put_note(out: &mut Vec<u8>, names: &[String], note: Note) {
    let _ = match note {
        Note::Quiet => write!(out, "[\"quiet\"]"),
        Note::Asked(number) => write!(out, "[\"asked\",{number}]"),
        Note::Blocked => write!(out, "[\"blocked\"]"),
        Note::Entered(lock) => write!(out, "[\"entered\",\"{}\"]", names[lock as usize]),
        Note::Reentered(lock) => write!(out, "[\"reentered\",\"{}\"]", names[lock as usize]),
        Note::Finished(r) => {
            let name = &names[r.lock as usize];
            write!(out, "[\"finished\",\"{name}\",{},{},{}]", r.number, r.place, r.reply)
        }
        Note::Left(lock) => write!(out, "[\"left\",\"{}\"]", names[lock as usize]),
        Note::Ready => write!(out, "[\"ready\"]"),
        Note::Withdrew(number) => write!(out, "[\"withdrew\",{number}]"),
    };
}

fn put_receipt(out: &mut Vec<u8>, names: &[String], r: Receipt) {
    let name = &names[r.lock as usize];
    let Receipt { worker, number, place, reply, .. } = r;
    let _ = write!(
        out,
        "{{\"lock\":\"{name}\",\"number\":{number},\"place\":{place},\"reply\":{reply},\"worker\":{worker}}}"
    );
}

fn put_op(out: &mut Vec<u8>, op: Op) {
    let _ = match op {
        Op::Get(c) => write!(out, "[\"get\",{c}]"),
        Op::Set(c, v) => write!(out, "[\"set\",{c},{v}]"),
        Op::Add(c, v) => write!(out, "[\"add\",{c},{v}]"),
        Op::Copy(a, b) => write!(out, "[\"copy\",{a},{b}]"),
        Op::Swap(a, b) => write!(out, "[\"swap\",{a},{b}]"),
    };
}

fn put_history(out: &mut Vec<u8>, world: &World) {
    out.extend_from_slice(b"{\"entries\":[");
    for (place, entry) in world.history.iter().enumerate() {
        let Receipt { worker, lock, number, place: at, reply } = entry.receipt;
        let comma = if place > 0 { "," } else { "" };
        let name = &world.names[lock as usize];
        let _ = write!(
            out,
            "{comma}{{\"lock\":\"{name}\",\"number\":{number},\"place\":{at},\"reply\":{reply},\"script\":["
        );
        for (index, op) in entry.script.ops[..entry.script.n as usize].iter().enumerate() {
            if index > 0 {
                out.push(b',');
            }
            put_op(out, *op);
        }
        let _ = write!(out, "],\"worker\":{worker}}}");
    }
    out.extend_from_slice(b"],\"ok\":\"history\"}");
}

fn put_walk(out: &mut Vec<u8>, world: &mut World, members: &Members) -> Result<(), Refusal> {
    let worker = small(members.get("worker")).ok_or(Refusal::BadLine)?;
    let until = match members.get("until") {
        None => None,
        Some(given) => {
            let given = given.as_str().filter(|word| KINDS.contains(word));
            Some(given.ok_or(Refusal::BadLine)?)
        }
    };
    let max = match members.get("max") {
        None => 10_000,
        given => small(given).filter(|max| (1..=10_000).contains(max)).ok_or(Refusal::BadLine)?,
    };
    if members.len() != 2 + members.contains_key("until") as usize + members.contains_key("max") as usize {
        return Err(Refusal::BadLine);
    }
    let mut notes = Vec::new();
    let mut end = "max";
    for _ in 0..max {
        let note = world.step(worker)?;
        if !matches!(note, Note::Quiet) {
            notes.push(note);
        }
        if until.is_some() && kind(note) == until {
            end = "until";
            break;
        }
        if matches!(&world.ups[worker as usize], Some(up) if matches!(up.stage, Stage::Ready)) {
            end = "ready";
            break;
        }
        if let Note::Blocked = note {
            end = "blocked";
            break;
        }
    }
    let _ = write!(out, "{{\"end\":\"{end}\",\"notes\":[");
    for (place, note) in notes.iter().enumerate() {
        if place > 0 {
            out.push(b',');
        }
        put_note(out, &world.names, *note);
    }
    out.extend_from_slice(b"],\"ok\":\"walk\"}");
    Ok(())
}

fn put_cells(out: &mut Vec<u8>, world: &World, lock: u32) -> Result<(), Refusal> {
    let owner = world.owner(lock)?;
    out.extend_from_slice(b"{\"cells\":[");
    for cell in 0..world.shape.cells {
        let comma = if cell > 0 { "," } else { "" };
        let value = world.words[of_lock(world.shape, lock, world.shape.leaves + cell)];
        let _ = write!(out, "{comma}{value}");
    }
    let _ = write!(out, "],\"ok\":\"cells\",\"settled\":{}}}", world.settled(owner));
    Ok(())
}

/// Obeys a line's value and puts its answer, or refuses it and puts nothing.
pub fn obey(open: &mut Option<World>, value: &Value, out: &mut Vec<u8>) -> Result<(), Refusal> {
    let members = value.as_object().ok_or(Refusal::BadLine)?;
    let word = members.get("do").and_then(Value::as_str).ok_or(Refusal::BadLine)?;
    if word == "open" {
        let world = opened(members);
        if world.as_ref().err() != Some(&Refusal::BadLine) && open.is_some() {
            return Err(Refusal::AlreadyOpen);
        }
        *open = Some(world?);
        out.extend_from_slice(b"{\"ok\":\"open\"}");
        return Ok(());
    }
    let world = open.as_mut().ok_or(Refusal::NotOpen)?;
    let has = |count| if members.len() == count { Ok(()) } else { Err(Refusal::BadLine) };
    let worker = || small(members.get("worker")).ok_or(Refusal::BadLine);
    let lock_of = |names: &[String]| {
        let name = members.get("lock").and_then(Value::as_str).ok_or(Refusal::BadLine)?;
        Ok(names.iter().position(|other| other == name).unwrap_or(names.len()) as u32)
    };
    match word {
        "submit" => {
            has(4)?;
            let script = members.get("script").and_then(script_in).ok_or(Refusal::BadLine)?;
            let lock = lock_of(&world.names)?;
            let number = world.submit(worker()?, lock, script)?;
            let _ = write!(out, "{{\"number\":{number},\"ok\":\"submit\"}}");
        }
        "walk" => return put_walk(out, world, members),
        "step" => {
            has(2)?;
            let note = world.step(worker()?)?;
            out.extend_from_slice(b"{\"note\":");
            put_note(out, &world.names, note);
            out.extend_from_slice(b",\"ok\":\"step\"}");
        }
        "crash" | "restart" | "withdraw" => {
            has(2)?;
            match word {
                "crash" => world.crash(worker()?)?,
                "restart" => world.restart(worker()?)?,
                _ => world.withdraw(worker()?)?,
            }
            let _ = write!(out, "{{\"ok\":\"{word}\"}}");
        }
        "owner" => {
            has(2)?;
            match world.owner(lock_of(&world.names)?)? {
                Some(worker) => write!(out, "{{\"ok\":\"owner\",\"owner\":{worker}}}"),
                None => write!(out, "{{\"ok\":\"owner\",\"owner\":null}}"),
            }
            .ok();
        }
        "cells" => {
            has(2)?;
            put_cells(out, world, lock_of(&world.names)?)?;
        }
        "last" => {
            has(2)?;
            match world.last(worker()?)? {
                None => out.extend_from_slice(b"{\"last\":null,\"ok\":\"last\"}"),
                Some(receipt) => {
                    out.extend_from_slice(b"{\"last\":");
                    put_receipt(out, &world.names, receipt);
                    out.extend_from_slice(b",\"ok\":\"last\"}");
                }
            }
        }
        "history" => {
            has(1)?;
            put_history(out, world);
        }
        "report" => {
            has(1)?;
            let [recover, post, enter, section, exit] = world.most;
            let _ = write!(
                out,
                "{{\"enter\":{enter},\"exit\":{exit},\"ok\":\"report\",\"post\":{post},\"recover\":{recover},\"section\":{section}}}"
            );
        }
        _ => return Err(Refusal::BadLine),
    }
    Ok(())
}
