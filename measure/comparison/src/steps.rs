//! Steps that go by the index of a guard among those that a system fetches.
use crate::Value;
use shred::{Accessor, ResourceId};

#[derive(Clone, Copy)]
pub enum Op {
    Add,
    Multiply,
    Set,
}

pub enum RawOperand {
    Number(i64),
    Resource(usize),
}
pub struct Change {
    pub target: usize,
    pub op: Op,
    pub operand: RawOperand,
}
pub enum RawStep {
    Change(Change),
    Read(usize),
    Write(usize),
}

#[derive(Clone, Copy)]
pub enum Guard {
    /// Of the guards that read, the one at this index.
    Read(u32),
    /// Of the guards that write, the one at this index.
    Written(u32),
}

#[derive(Clone, Copy)]
pub enum Operand {
    Number(i64),
    Of(Guard),
}

#[derive(Clone, Copy)]
pub enum Step {
    Change {
        target: u32,
        op: Op,
        operand: Operand,
    },
    /// `?X`: the value is read, and nothing done with it.
    Look(Guard),
}

/// The ids that a system declares, each once; an id that is written is not declared as read besides.
#[derive(Clone, Default)]
pub struct Ids {
    /// Those that are fetched for reading.
    pub reads: Vec<ResourceId>,
    pub writes: Vec<ResourceId>,
    /// Those that are declared as read and not fetched.
    pub only_declared: Vec<ResourceId>,
}

impl Accessor for Ids {
    fn try_new() -> Option<Self> {
        None
    }
    fn reads(&self) -> Vec<ResourceId> {
        self.reads
            .iter()
            .chain(&self.only_declared)
            .cloned()
            .collect()
    }
    fn writes(&self) -> Vec<ResourceId> {
        self.writes.clone()
    }
}

#[derive(Clone, Default)]
pub struct Compiled {
    pub ids: Ids,
    pub steps: Vec<Step>,
    /// How many steps the line has, of which some do nothing.
    pub count: usize,
}

pub fn id_of(place: usize) -> ResourceId {
    ResourceId::new_with_dynamic_id::<Value>(place as u64)
}

/// The steps with what they declare. Where `looks`, a step `?X` fetches and reads the value; else it only declares it.
pub fn compile(raw: &[RawStep], looks: bool) -> Compiled {
    let mut writes: Vec<usize> = Vec::new();
    let mut reads: Vec<usize> = Vec::new();
    let mut only: Vec<usize> = Vec::new();
    let add = |list: &mut Vec<usize>, place: usize| {
        if !list.contains(&place) {
            list.push(place)
        }
    };
    for s in raw {
        match s {
            RawStep::Change(c) => add(&mut writes, c.target),
            RawStep::Write(p) => add(&mut writes, *p),
            _ => {}
        }
    }
    for s in raw {
        match s {
            RawStep::Change(Change {
                operand: RawOperand::Resource(p),
                ..
            }) if !writes.contains(p) => add(&mut reads, *p),
            RawStep::Read(p) if looks && !writes.contains(p) => add(&mut reads, *p),
            _ => {}
        }
    }
    for s in raw {
        if let RawStep::Read(p) = s {
            if !writes.contains(p) && !reads.contains(p) {
                add(&mut only, *p)
            }
        }
    }
    let at = |list: &Vec<usize>, p: usize| list.iter().position(|x| *x == p).map(|i| i as u32);
    let guard = |p: usize| match at(&writes, p) {
        Some(i) => Guard::Written(i),
        None => Guard::Read(at(&reads, p).unwrap()),
    };
    let mut steps = Vec::new();
    for s in raw {
        match s {
            RawStep::Change(c) => steps.push(Step::Change {
                target: at(&writes, c.target).unwrap(),
                op: c.op,
                operand: match c.operand {
                    RawOperand::Number(n) => Operand::Number(n),
                    RawOperand::Resource(p) => Operand::Of(guard(p)),
                },
            }),
            RawStep::Read(p) if looks => steps.push(Step::Look(guard(*p))),
            _ => {}
        }
    }
    let ids = |l: &[usize]| l.iter().map(|p| id_of(*p)).collect::<Vec<_>>();
    Compiled {
        ids: Ids {
            reads: ids(&reads),
            writes: ids(&writes),
            only_declared: ids(&only),
        },
        steps,
        count: raw.len(),
    }
}

#[cold]
#[inline(never)]
fn overflow() -> ! {
    panic!("overflow")
}

#[inline(always)]
pub fn apply(op: Op, target: &mut i64, operand: i64) {
    let made = match op {
        Op::Add => target.checked_add(operand),
        Op::Multiply => target.checked_mul(operand),
        Op::Set => Some(operand),
    };
    match made {
        Some(n) => *target = n,
        None => overflow(),
    }
}

/// A read that the compiler does not leave out: one load.
#[inline(always)]
pub fn look(v: &i64) {
    unsafe {
        std::ptr::read_volatile(v);
    }
}
