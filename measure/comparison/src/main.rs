//! Drives shred 0.12.0 by scripts, to be measured beside `shredrun`. Where nothing refuses or overflows it prints the same values.
//!
//!     comparison once <SCRIPT      each system fetches what it declares once a run, as its system data
//!     comparison few <SCRIPT       it fetches in each step where there are few, by the rule of `shredrun`
//!     comparison declared <SCRIPT  the same, where a step `?X` only declares
//!     comparison waiting SYSTEMS TIMES WORK  dispatches the systems of `shredmeasure`
//!     comparison plan SYSTEMS TIMES  builds plans of the accesses that `shredmeasure` draws
//!
//! Dispatches run on one thread, and with `--features parallel` on the original's pool.
mod script;
mod steps;
mod systems;

use script::{parse, Line};
use shred::{Dispatcher, DispatcherBuilder, RunningTime, System, World};
use std::hint::black_box;
use std::{io, process};
use steps::{id_of, Compiled, Ids};
use systems::{ByRule, Once, Planned, Rounds, Waiting};

/// The type of each resource.
pub struct Value(pub i64);

type Builder = DispatcherBuilder<'static, 'static>;

trait FromLine: for<'a> System<'a> + Send + 'static {
    fn from_line(time: RunningTime, compiled: Compiled) -> Self;
}

impl FromLine for Once {
    fn from_line(time: RunningTime, compiled: Compiled) -> Self {
        Once { time, compiled }
    }
}

impl FromLine for ByRule {
    fn from_line(time: RunningTime, compiled: Compiled) -> Self {
        let few = compiled.count / 8 < compiled.ids.writes.len();
        ByRule {
            few,
            time,
            compiled,
        }
    }
}

fn builder_of<S: FromLine>(lines: &[Line]) -> Builder {
    let mut builder = Builder::new();
    for line in lines {
        match line {
            Line::System(system) => {
                let deps: Vec<&str> = system.deps.iter().map(String::as_str).collect();
                builder.add(
                    S::from_line(system.time, system.compiled.clone()),
                    &system.name,
                    &deps,
                );
            }
            Line::Batch(batch) => {
                let deps: Vec<&str> = batch.deps.iter().map(String::as_str).collect();
                let inner = builder_of::<S>(&batch.inner);
                builder.add_batch(Rounds(batch.rounds), inner, &batch.name, &deps);
            }
            Line::Barrier => builder.add_barrier(),
            Line::Local(compiled) => {
                builder.add_thread_local(S::from_line(RunningTime::Average, compiled.clone()))
            }
        }
    }
    builder
}

fn dispatch_each(dispatcher: &mut Dispatcher<'static, 'static>, world: &World, times: usize) {
    for _ in 0..times {
        dispatcher.dispatch(world);
    }
}

fn run<S: FromLine>(looks: bool) {
    let text = io::read_to_string(io::stdin().lock()).expect("standard input is text");
    let script = parse(&text, looks);
    let mut world = World::empty();
    for (place, (_, value)) in script.resources.iter().enumerate() {
        world.insert_by_id(id_of(place), Value(*value));
    }
    let mut dispatcher = builder_of::<S>(&script.lines).build();
    dispatcher.setup(&mut world);
    dispatch_each(&mut dispatcher, &world, script.times);
    for (place, (name, _)) in script.resources.iter().enumerate() {
        let value = world
            .try_fetch_by_id::<Value>(id_of(place))
            .expect("no such resource");
        println!("{name}={}", value.0);
    }
    println!("ok");
}

/// Each system waits for so many pauses of the processor, adds 1 to a count of its own and declares to read one that all share. The
/// sum of the counts is printed.
fn waiting(count: u64, times: u64, work: u64) {
    let mut world = World::empty();
    let mut builder = Builder::new();
    world.insert_by_id(id_of(0), Value(0));
    for number in 1..=count as usize {
        world.insert_by_id(id_of(number), Value(0));
        builder.add(Waiting::of(number, work), "", &[]);
    }
    dispatch_each(&mut builder.build(), &world, times as usize);
    let sum: i64 = (1..=count as usize)
        .filter_map(|number| world.try_fetch_by_id::<Value>(id_of(number)))
        .map(|count| count.0)
        .sum();
    println!("{sum}");
}

fn next(seed: u64) -> u64 {
    seed.wrapping_mul(6364136223846793005)
        .wrapping_add(1442695040888963407)
}

/// 1 to 6 of 300 resources, each read or written.
fn drawn(seed: &mut u64) -> Ids {
    let mut ids = Ids::default();
    *seed = next(*seed);
    for _ in 0..(*seed >> 33) % 6 + 1 {
        *seed = next(*seed);
        let id = id_of(((*seed >> 33) % 300) as usize);
        if (*seed >> 50) % 3 == 0 {
            ids.writes.push(id)
        } else {
            ids.reads.push(id)
        }
    }
    ids
}

fn plan(count: u64, times: u64) {
    let mut seed = count;
    for _ in 0..times {
        let mut builder = Builder::new();
        for _ in 0..count {
            builder.add(Planned(drawn(&mut seed)), "", &[]);
        }
        black_box(builder.build());
    }
}

fn usage() -> ! {
    eprintln!("usage: comparison once|few|declared <SCRIPT, comparison waiting SYSTEMS TIMES WORK, or comparison plan SYSTEMS TIMES");
    process::exit(2)
}

fn number(word: &str) -> u64 {
    word.parse().unwrap_or_else(|_| usage())
}

fn main() {
    let words: Vec<String> = std::env::args().skip(1).collect();
    let words: Vec<&str> = words.iter().map(String::as_str).collect();
    match words[..] {
        ["once"] => run::<Once>(true),
        ["few"] => run::<ByRule>(true),
        ["declared"] => run::<ByRule>(false),
        ["waiting", count, times, work] => waiting(number(count), number(times), number(work)),
        ["plan", count, times] => plan(number(count), number(times)),
        _ => usage(),
    }
}
