//! Reads a script. It has to be a good one without `refuse:`; whatever is wrong in it ends the program. `mode`, `workers` and `plan`
//! are passed over: how the program is built says where all runs, and nothing is printed of the plan.
use crate::steps::{compile, Change, Compiled, Op, RawOperand, RawStep};
use shred::RunningTime;
use std::collections::HashMap;
use std::mem;

pub struct SystemLine {
    pub name: String,
    pub time: RunningTime,
    pub deps: Vec<String>,
    pub compiled: Compiled,
}

pub struct BatchLine {
    pub name: String,
    pub deps: Vec<String>,
    pub rounds: usize,
    pub inner: Vec<Line>,
}

pub enum Line {
    System(SystemLine),
    Batch(BatchLine),
    Barrier,
    Local(Compiled),
}

pub struct Script {
    pub resources: Vec<(String, i64)>,
    pub lines: Vec<Line>,
    pub times: usize,
}

fn name_of(word: &str) -> String {
    if word == "-" {
        String::new()
    } else {
        word.to_string()
    }
}

fn deps_of(word: &str) -> Vec<String> {
    if word == "-" {
        Vec::new()
    } else {
        word.split(',').map(str::to_string).collect()
    }
}

fn step_of(word: &str, places: &HashMap<String, usize>) -> RawStep {
    let place = |name: &str| {
        *places
            .get(name)
            .unwrap_or_else(|| panic!("no such resource {name}"))
    };
    if let Some(name) = word.strip_prefix('?') {
        return RawStep::Read(place(name));
    }
    if let Some(name) = word.strip_prefix('!') {
        return RawStep::Write(place(name));
    }
    if word.starts_with("refuse:") {
        panic!("refuse: the original's systems cannot refuse");
    }
    let (left, right) = word.split_once('=').expect("bad word");
    let (name, op) = if let Some(n) = left.strip_suffix('+') {
        (n, Op::Add)
    } else if let Some(n) = left.strip_suffix('*') {
        (n, Op::Multiply)
    } else {
        (left, Op::Set)
    };
    let operand = match right.parse::<i64>() {
        Ok(n) => RawOperand::Number(n),
        Err(_) => RawOperand::Resource(place(right)),
    };
    RawStep::Change(Change {
        target: place(name),
        op,
        operand,
    })
}

pub fn parse(text: &str, looks: bool) -> Script {
    let mut resources = Vec::new();
    let mut places = HashMap::new();
    let mut open: Vec<(String, Vec<String>, usize, Vec<Line>)> = Vec::new();
    let mut lines = Vec::new();
    let mut times = 1;
    for line in text.split('\n') {
        let mut words = line.split(' ').filter(|w| !w.is_empty());
        let Some(first) = words.next() else { continue };
        if first.starts_with('#') {
            continue;
        }
        match first {
            "res" => {
                let name = words.next().unwrap().to_string();
                let value: i64 = words.next().unwrap().parse().unwrap();
                assert!(places.insert(name.clone(), resources.len()).is_none());
                resources.push((name, value));
            }
            "sys" => {
                let name = name_of(words.next().unwrap());
                let time = match words.next().unwrap() {
                    "very-short" => RunningTime::VeryShort,
                    "short" => RunningTime::Short,
                    "average" => RunningTime::Average,
                    "long" => RunningTime::Long,
                    "very-long" => RunningTime::VeryLong,
                    w => panic!("bad time {w}"),
                };
                let deps = deps_of(words.next().unwrap());
                let steps: Vec<RawStep> = words.map(|w| step_of(w, &places)).collect();
                lines.push(Line::System(SystemLine {
                    name,
                    time,
                    deps,
                    compiled: compile(&steps, looks),
                }));
            }
            "local" => {
                let steps: Vec<RawStep> = words.map(|w| step_of(w, &places)).collect();
                lines.push(Line::Local(compile(&steps, looks)));
            }
            "barrier" => lines.push(Line::Barrier),
            "batch" => {
                let name = name_of(words.next().unwrap());
                let deps = deps_of(words.next().unwrap());
                let rounds = words.next().unwrap().parse().unwrap();
                open.push((name, deps, rounds, mem::take(&mut lines)));
            }
            "end" => {
                let (name, deps, rounds, outer) = open.pop().expect("end without batch");
                let inner = mem::replace(&mut lines, outer);
                lines.push(Line::Batch(BatchLine {
                    name,
                    deps,
                    rounds,
                    inner,
                }));
            }
            "times" => times = words.next().unwrap().parse().unwrap(),
            "mode" | "workers" | "plan" => {}
            w => panic!("unknown line {w}"),
        }
    }
    assert!(open.is_empty());
    Script {
        resources,
        lines,
        times,
    }
}
