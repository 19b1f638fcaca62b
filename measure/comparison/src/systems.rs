//! Systems whose ids are known at run time alone.
use crate::steps::{apply, id_of, look, Compiled, Guard, Ids, Operand, Step};
use crate::Value;
use shred::{
    AccessorCow, BatchController, Dispatcher, DynamicSystemData, Fetch, FetchMut, RunningTime,
    System, World,
};
use smallvec::SmallVec;
use std::hint::spin_loop;

type Reads<'a> = SmallVec<[Fetch<'a, Value>; 4]>;
type Writes<'a> = SmallVec<[FetchMut<'a, Value>; 4]>;

fn read<'a>(world: &'a World, ids: &Ids, index: usize) -> Fetch<'a, Value> {
    let id = ids.reads[index].clone();
    world.try_fetch_by_id(id).expect("no such resource")
}

fn write<'a>(world: &'a World, ids: &Ids, index: usize) -> FetchMut<'a, Value> {
    let id = ids.writes[index].clone();
    world.try_fetch_mut_by_id(id).expect("no such resource")
}

/// A guard for each id that is declared.
pub struct Guards<'a> {
    reads: Reads<'a>,
    writes: Writes<'a>,
}

impl<'a> DynamicSystemData<'a> for Guards<'a> {
    type Accessor = Ids;

    fn setup(_: &Ids, _: &mut World) {}

    fn fetch(ids: &Ids, world: &'a World) -> Self {
        Guards {
            reads: (0..ids.reads.len())
                .map(|index| read(world, ids, index))
                .collect(),
            writes: (0..ids.writes.len())
                .map(|index| write(world, ids, index))
                .collect(),
        }
    }
}

/// The world alone.
pub struct Behind<'a>(&'a World);

impl<'a> DynamicSystemData<'a> for Behind<'a> {
    type Accessor = Ids;

    fn setup(_: &Ids, _: &mut World) {}

    fn fetch(_: &Ids, world: &'a World) -> Self {
        Behind(world)
    }
}

fn run_over(steps: &[Step], guards: &mut Guards<'_>) {
    let Guards { reads, writes } = guards;
    for step in steps {
        match *step {
            Step::Change {
                target,
                op,
                operand,
            } => {
                let number = match operand {
                    Operand::Number(number) => number,
                    Operand::Of(Guard::Read(index)) => reads[index as usize].0,
                    Operand::Of(Guard::Written(index)) => writes[index as usize].0,
                };
                apply(op, &mut writes[target as usize].0, number);
            }
            Step::Look(Guard::Read(index)) => look(&reads[index as usize].0),
            Step::Look(Guard::Written(index)) => look(&writes[index as usize].0),
        }
    }
}

fn run_each(compiled: &Compiled, world: &World) {
    let ids = &compiled.ids;
    for step in &compiled.steps {
        match *step {
            Step::Change {
                target,
                op,
                operand,
            } => {
                let number = match operand {
                    Operand::Number(number) => number,
                    Operand::Of(Guard::Read(index)) => read(world, ids, index as usize).0,
                    Operand::Of(Guard::Written(index)) => write(world, ids, index as usize).0,
                };
                apply(op, &mut write(world, ids, target as usize).0, number);
            }
            Step::Look(Guard::Read(index)) => look(&read(world, ids, index as usize).0),
            Step::Look(Guard::Written(index)) => look(&write(world, ids, index as usize).0),
        }
    }
}

/// Fetches what it declares once a run, as its system data.
pub struct Once {
    pub time: RunningTime,
    pub compiled: Compiled,
}

impl<'a> System<'a> for Once {
    type SystemData = Guards<'a>;

    fn run(&mut self, mut guards: Guards<'a>) {
        run_over(&self.compiled.steps, &mut guards)
    }

    fn running_time(&self) -> RunningTime {
        self.time
    }

    fn accessor<'b>(&'b self) -> AccessorCow<'a, 'b, Self> {
        AccessorCow::Ref(&self.compiled.ids)
    }
}

/// Fetches in each step where there are few, else once a run: by the rule of `shredrun`.
pub struct ByRule {
    pub few: bool,
    pub time: RunningTime,
    pub compiled: Compiled,
}

impl<'a> System<'a> for ByRule {
    type SystemData = Behind<'a>;

    fn run(&mut self, Behind(world): Behind<'a>) {
        if self.few {
            run_each(&self.compiled, world)
        } else {
            run_over(
                &self.compiled.steps,
                &mut Guards::fetch(&self.compiled.ids, world),
            )
        }
    }

    fn running_time(&self) -> RunningTime {
        self.time
    }

    fn accessor<'b>(&'b self) -> AccessorCow<'a, 'b, Self> {
        AccessorCow::Ref(&self.compiled.ids)
    }
}

/// The controller of a batch, which runs its plan so often.
pub struct Rounds(pub usize);

impl<'a, 'b, 'c> BatchController<'a, 'b, 'c> for Rounds {
    type BatchSystemData = ();

    fn run(&mut self, world: &'c World, dispatcher: &mut Dispatcher<'a, 'b>) {
        for _ in 0..self.0 {
            dispatcher.dispatch(world);
        }
    }
}

/// Waits for so many pauses of the processor, and adds 1 to a count of its own.
pub struct Waiting {
    work: u64,
    ids: Ids,
}

impl Waiting {
    pub fn of(number: usize, work: u64) -> Self {
        Waiting {
            work,
            ids: Ids {
                writes: vec![id_of(number)],
                only_declared: vec![id_of(0)],
                ..Ids::default()
            },
        }
    }
}

impl<'a> System<'a> for Waiting {
    type SystemData = Guards<'a>;

    fn run(&mut self, mut guards: Guards<'a>) {
        for _ in 0..self.work {
            spin_loop();
        }
        let count = &mut guards.writes[0].0;
        *count = count.wrapping_add(1);
    }

    fn accessor<'b>(&'b self) -> AccessorCow<'a, 'b, Self> {
        AccessorCow::Ref(&self.ids)
    }
}

/// A system that is only planned.
pub struct Planned(pub Ids);

impl<'a> System<'a> for Planned {
    type SystemData = Behind<'a>;

    fn run(&mut self, _: Behind<'a>) {}

    fn accessor<'b>(&'b self) -> AccessorCow<'a, 'b, Self> {
        AccessorCow::Ref(&self.0)
    }
}
