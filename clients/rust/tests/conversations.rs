//! The conversations that all clients have with one stand-in server: ../conversations, whose README describes them.

use std::collections::VecDeque;
use std::env;
use std::fs;
use std::io::{BufRead, BufReader, Write};
use std::path::{Path, PathBuf};
use std::process::{Child, ChildStdin, ChildStdout, Command, Stdio};
use std::sync::Mutex;
use std::thread;
use std::time::Duration;

use rme_client::json::{object, Value};
use rme_client::{Error, Job, LockStatus, Observer, Op, Options, PendingJob, Receipt, Spaces, Worker, WorkerStatus};

const AT_ONCE: usize = 8;

/// How long a client tries to get a session, if the conversation does not say it.
const LATEST: u64 = 60;

struct StandIn {
    program: Child,
    orders: ChildStdin,
    answers: BufReader<ChildStdout>,
    ports: Value,
}

impl StandIn {
    fn start(folder: &Path) -> StandIn {
        let mut program = Command::new("python3")
            .arg(folder.join("stand_in.py"))
            .stdin(Stdio::piped())
            .stdout(Stdio::piped())
            .spawn()
            .expect("python3 runs the stand-in");
        let orders = program.stdin.take().unwrap();
        let mut answers = BufReader::new(program.stdout.take().unwrap());
        let mut line = String::new();
        answers.read_line(&mut line).unwrap();
        StandIn { program, orders, answers, ports: Value::parse(line.trim()).unwrap() }
    }

    fn verdict(&mut self, name: &str) -> String {
        writeln!(self.orders, "{name}").unwrap();
        let mut line = String::new();
        self.answers.read_line(&mut line).unwrap();
        line.trim_end().to_string()
    }

    fn end(self) {
        let StandIn { mut program, orders, .. } = self;
        drop(orders);
        program.wait().unwrap();
    }
}

/// A conversation: its first line, and the steps that follow it.
type Conversation = (Value, Vec<Value>);

fn conversations(folder: &Path) -> Vec<Conversation> {
    let text = fs::read_to_string(folder.join("conversations.jsonl")).unwrap();
    let mut found: Vec<Conversation> = Vec::new();
    for line in text.lines().filter(|it| !it.is_empty()) {
        let step = Value::parse(line).unwrap();
        match found.last_mut() {
            _ if step.get("conversation").is_some() => found.push((step, Vec::new())),
            Some((_, steps)) => steps.push(step),
            None => panic!("the file begins with a conversation"),
        }
    }
    found
}

fn text<'a>(value: &'a Value, name: &str) -> &'a str {
    value.get(name).and_then(Value::as_text).unwrap_or_else(|| panic!("{value} has no {name}"))
}

fn number(value: &Value, name: &str) -> Option<u64> {
    value.get(name).and_then(Value::as_number)
}

fn small(value: &Value, name: &str) -> u32 {
    number(value, name).unwrap_or(0).try_into().unwrap()
}

fn script_of(call: &Value) -> Vec<Op> {
    let cell = |op: &[Value], at: usize| op[at].as_number().unwrap().try_into().unwrap();
    let script = call.get("script").and_then(Value::as_list).unwrap().iter().map(|it| it.as_list().unwrap());
    let op = |op: &[Value]| match op[0].as_text().unwrap() {
        "get" => Op::Get(cell(op, 1)),
        "set" => Op::Set(cell(op, 1), op[2].as_number().unwrap()),
        "add" => Op::Add(cell(op, 1), op[2].as_number().unwrap()),
        "copy" => Op::Copy(cell(op, 1), cell(op, 2)),
        _ => Op::Swap(cell(op, 1), cell(op, 2)),
    };
    script.map(op).collect()
}

fn value_of(script: &[Op]) -> Value {
    let op = |op: &Op| match *op {
        Op::Get(cell) => vec!["get".into(), u64::from(cell).into()],
        Op::Set(cell, value) => vec!["set".into(), u64::from(cell).into(), value.into()],
        Op::Add(cell, value) => vec!["add".into(), u64::from(cell).into(), value.into()],
        Op::Copy(from, to) => vec!["copy".into(), u64::from(from).into(), u64::from(to).into()],
        Op::Swap(one, other) => vec!["swap".into(), u64::from(one).into(), u64::from(other).into()],
    };
    Value::List(script.iter().map(|it| Value::List(op(it))).collect())
}

fn or_null<T: Into<Value>>(value: Option<T>) -> Value {
    value.map_or(Value::Null, Into::into)
}

fn receipt_value(receipt: &Receipt) -> Value {
    object(vec![
        ("lock", receipt.lock.as_str().into()),
        ("number", receipt.number.into()),
        ("place", receipt.place.into()),
        ("reply", receipt.reply.into()),
        ("worker", u64::from(receipt.worker).into()),
    ])
}

fn pending_value(job: &PendingJob) -> Value {
    object(vec![
        ("lock", job.lock.as_str().into()),
        ("number", job.number.into()),
        ("script", value_of(&job.script)),
        ("stance", job.stance.word().into()),
    ])
}

fn numbers(values: &[u64]) -> Value {
    Value::List(values.iter().map(|it| Value::Number(*it)).collect())
}

fn lock_value(lock: &LockStatus) -> Value {
    object(vec![
        ("cells", numbers(&lock.cells)),
        ("name", lock.name.as_str().into()),
        ("owner", or_null(lock.owner.map(u64::from))),
        ("sections", lock.sections.into()),
        ("settled", Value::Bool(lock.settled)),
    ])
}

fn worker_value(worker: &WorkerStatus) -> Value {
    let mut members = vec![
        ("attached", Value::Bool(worker.attached)),
        ("number", worker.number.into()),
        ("stance", worker.stance.word().into()),
    ];
    members.extend(worker.label.as_deref().map(|it| ("as", it.into())));
    members.extend(worker.blocked_by.map(|it| ("blocked_by", u64::from(it).into())));
    members.extend(worker.lock.as_deref().map(|it| ("lock", it.into())));
    members.extend(worker.seconds.map(|it| ("seconds", it.into())));
    object(members)
}

/// An error, by its kind and by the members that the conversation names.
fn error_value(error: &Error, wanted: Option<&Value>) -> Value {
    let (kind, members) = match error {
        Error::Refused { code, expected, .. } => {
            ("Refused", vec![("code", or_null(*code)), ("expected", or_null(*expected))])
        }
        Error::Done(receipt) => ("Done", vec![("receipt", receipt_value(receipt))]),
        Error::Pending { lock, number, stance } => {
            let stance = ("stance", stance.word().into());
            ("Pending", vec![("lock", lock.as_str().into()), ("number", (*number).into()), stance])
        }
        Error::Blocked { lock, number } => {
            ("Blocked", vec![("lock", or_null(lock.as_deref())), ("number", (*number).into())])
        }
        Error::Overtaken { number, found, receipt } => {
            let receipt = receipt.as_ref().map_or(Value::Null, receipt_value);
            ("Overtaken", vec![("number", (*number).into()), ("found", or_null(*found)), ("receipt", receipt)])
        }
        Error::Unreachable { number, .. } => ("Unreachable", vec![("number", or_null(*number))]),
        Error::Protocol { .. } => ("ProtocolError", vec![]),
        _ => ("another", vec![]),
    };
    assert!(error.to_string().len() > 20, "{error:?} says something");
    let named = members.into_iter().filter(|(name, _)| wanted.map_or(false, |it| it.get(name).is_some()));
    object([("error", kind.into())].into_iter().chain(named).collect())
}

/// The same value with sorted members.
fn sorted(value: &Value) -> Value {
    match value {
        Value::List(values) => Value::List(values.iter().map(sorted).collect()),
        Value::Object(members) => {
            let mut members: Vec<_> = members.iter().map(|(name, it)| (name.clone(), sorted(it))).collect();
            members.sort_by(|one, other| one.0.cmp(&other.0));
            Value::Object(members)
        }
        _ => value.clone(),
    }
}

struct Clients {
    worker: Worker,
    observer: Observer,
    spaces: Spaces,
}

impl Clients {
    fn new(told: &Value, ports: &Value) -> Clients {
        let ports: Vec<u16> = ports.as_list().unwrap().iter().map(|it| it.as_number().unwrap() as u16).collect();
        let at = || ports.iter().map(|port| ("127.0.0.1", *port));
        let latest = number(told, "connect_timeout").unwrap_or(LATEST);
        let mut options = Options::new().connect_timeout(Duration::from_secs(latest));
        options = options.take(told.get("take").is_some());
        for (name, set) in [
            ("label", Options::label as fn(Options, &str) -> Options),
            ("secret", Options::secret),
            ("space", Options::space),
        ] {
            if let Some(text) = told.get(name).and_then(Value::as_text) {
                options = set(options, text);
            }
        }
        Clients {
            worker: Worker::new(at(), small(told, "worker"), options.clone()).unwrap(),
            observer: Observer::new(at(), options.clone()).unwrap(),
            spaces: Spaces::new(at(), options).unwrap(),
        }
    }

    /// The result of a call: its answer, or its error.
    fn call(&mut self, call: &Value, held: &mut Option<Value>) -> Result<Value, Option<Error>> {
        let wait = number(call, "wait").map(Duration::from_secs);
        let receipt = |it: Option<Receipt>| it.as_ref().map_or(Value::Null, receipt_value);
        Ok(match text(call, "call") {
            "submit" => receipt_value(&self.worker.submit(job_of(call, &script_of(call)))?),
            "inside" => return self.inside(call, held),
            "finish" => receipt(self.worker.finish(wait)?),
            "withdraw" => receipt(self.worker.withdraw()?),
            "last" => receipt(self.worker.last()?),
            "pending" => self.worker.pending()?.as_ref().map_or(Value::Null, pending_value),
            "next_number" => self.worker.next_number()?.into(),
            "close" => {
                self.worker.close();
                Value::Null
            }
            _ => self.call_without_worker(call)?,
        })
    }

    fn inside(&mut self, call: &Value, held: &mut Option<Value>) -> Result<Value, Option<Error>> {
        let inside = self.worker.enter(job_of(call, &script_of(call)))?;
        *held = Some(object(vec![
            ("again", Value::Bool(inside.again())),
            ("life", inside.life().into()),
            ("number", inside.number().into()),
            ("section", inside.section().into()),
        ]));
        if call.get("fails").is_some() {
            return Err(None);
        }
        Ok(receipt_value(&inside.commit()?))
    }

    fn call_without_worker(&mut self, call: &Value) -> Result<Value, Error> {
        Ok(match text(call, "call") {
            "status" => {
                let status = self.observer.status()?;
                object(vec![
                    ("epoch", status.epoch.into()),
                    ("locks", Value::List(status.locks.iter().map(lock_value).collect())),
                    ("workers", Value::List(status.workers.iter().map(worker_value).collect())),
                ])
            }
            "owner" => or_null(self.observer.owner(text(call, "lock"))?.map(u64::from)),
            "cells" => {
                let cells = self.observer.cells(text(call, "lock"))?;
                object(vec![("cells", numbers(&cells.cells)), ("settled", Value::Bool(cells.settled))])
            }
            "create" => {
                let locks = call.get("locks").and_then(Value::as_list).unwrap();
                let locks: Vec<&str> = locks.iter().map(|it| it.as_text().unwrap()).collect();
                self.spaces.create(text(call, "space"), &locks, small(call, "workers"), small(call, "cells"))?;
                Value::Null
            }
            "spaces" => Value::List(self.spaces.names(None)?.iter().map(|it| it.as_str().into()).collect()),
            "drop" => {
                self.spaces.drop_space(text(call, "space"))?;
                Value::Null
            }
            other => panic!("there is no call {other}"),
        })
    }
}

fn job_of<'a>(call: &'a Value, script: &'a [Op]) -> Job<'a> {
    let job = Job::new(text(call, "lock"), script);
    let job = number(call, "number").map_or(job, |it| job.number(it));
    number(call, "wait").map_or(job, |it| job.wait(Duration::from_secs(it)))
}

/// What is wrong in a conversation.
fn play(told: &Value, steps: &[Value], ports: &Value) -> Option<String> {
    let mut clients = Clients::new(told, ports);
    let mut held_wanted: Option<&Value> = None;
    let (mut call, mut held): (Option<&Value>, _) = (None, None);
    for step in steps {
        if let Some(Value::OtherNumber(seconds)) = step.get("pause") {
            thread::sleep(Duration::from_secs_f64(seconds.parse().unwrap()));
        } else if step.get("call").is_some() {
            call = Some(step);
            held_wanted = None;
            held = None;
        } else if let Some(wanted) = step.get("held") {
            held_wanted = Some(wanted);
        } else if step.get("returns").is_some() || step.get("raises").is_some() {
            let call = call.take().unwrap();
            let found = match clients.call(call, &mut held) {
                Ok(value) => object(vec![("returns", value)]),
                Err(Some(error)) => object(vec![("raises", error_value(&error, step.get("raises")))]),
                Err(None) => object(vec![("raises", object(vec![("error", "Block".into())]))]),
            };
            if sorted(&found) != sorted(step) || held.as_ref().map(sorted) != held_wanted.map(sorted) {
                return Some(format!("{call}: {found}, {held:?} in place of {step}, {held_wanted:?}"));
            }
        }
    }
    None
}

#[test]
fn all_conversations() {
    let folder = PathBuf::from(env::var_os("CARGO_MANIFEST_DIR").unwrap()).join("../conversations");
    if !folder.exists() {
        eprintln!("the conversations are in the repository, not in the package: left out");
        return;
    }
    let told = conversations(&folder);
    let mut stand_in = StandIn::start(&folder);
    let (queue, wrong) = (Mutex::new(told.iter().collect::<VecDeque<_>>()), Mutex::new(Vec::new()));
    let ports = &stand_in.ports;
    thread::scope(|scope| {
        for _ in 0..AT_ONCE {
            scope.spawn(|| loop {
                let next = queue.lock().unwrap().pop_front();
                let (first, steps) = match next {
                    Some(it) => it,
                    None => return,
                };
                let name = text(first, "conversation");
                if let Some(why) = play(first, steps, ports.get(name).unwrap()) {
                    wrong.lock().unwrap().push(format!("{name}: {why}"));
                }
            });
        }
    });
    let mut wrong = wrong.into_inner().unwrap();
    for (first, _) in &told {
        let name = text(first, "conversation");
        let verdict = stand_in.verdict(name);
        if verdict != "ok" {
            wrong.push(format!("{name}: the stand-in: {verdict}"));
        }
    }
    stand_in.end();
    println!("{} conversations, {} wrong", told.len(), wrong.len());
    assert!(wrong.is_empty(), "{}", wrong.join("\n"));
}
