//! What `storemeasure` does, over two sorted `Vec`s (`vec`) or two `BTreeMap`s (`map`), given as an argument. The mode `once` is an
//! `add` that goes over the `Vec`s once, and stops where a sum does not fit.
use std::collections::BTreeMap;
use std::io::Read;

type Rows = Vec<(u64, i64)>;
type Map = BTreeMap<u64, i64>;

/// The value of the entity in these rows, of which those of smaller entities are passed by.
fn value(others: &[(u64, i64)], place: &mut usize, entity: u64) -> Option<i64> {
    while *place < others.len() && others[*place].0 < entity {
        *place += 1;
    }
    (*place < others.len() && others[*place].0 == entity).then(|| others[*place].1)
}

/// Adds the others' values. Where a sum does not fit nothing changes, so it goes over the rows twice.
fn add_rows(rows: &mut Rows, others: &Rows) -> Option<()> {
    let mut place = 0;
    for row in rows.iter() {
        if let Some(more) = value(others, &mut place, row.0) {
            row.1.checked_add(more)?;
        }
    }
    add_rows_at_once(rows, others)
}

/// Adds the others' values, up to the first sum that does not fit.
fn add_rows_at_once(rows: &mut Rows, others: &Rows) -> Option<()> {
    let mut place = 0;
    for row in rows.iter_mut() {
        if let Some(more) = value(others, &mut place, row.0) {
            row.1 = row.1.checked_add(more)?;
        }
    }
    Some(())
}

/// Adds the others' values. Where a sum does not fit nothing changes.
fn add_map(map: &mut Map, others: &Map) -> Option<()> {
    for (entity, value) in map.iter() {
        if let Some(more) = others.get(entity) {
            value.checked_add(*more)?;
        }
    }
    for (entity, value) in map.iter_mut() {
        if let Some(more) = others.get(entity) {
            *value = value.checked_add(*more)?;
        }
    }
    Some(())
}

fn put_rows(rows: &mut Rows, entity: u64) -> Option<i64> {
    let place = rows.binary_search_by_key(&entity, |row| row.0).ok()?;
    let row = rows.remove(place);
    let place = rows.binary_search_by_key(&entity, |row| row.0).err()?;
    rows.insert(place, row);
    Some(row.1)
}

fn put_map(map: &mut Map, entity: u64) -> Option<i64> {
    let value = map.remove(&entity)?;
    map.insert(entity, value);
    Some(value)
}

fn joined_rows(rows: &Rows, others: &Rows) -> i64 {
    let (mut sum, mut place) = (0i64, 0);
    for row in rows {
        if let Some(more) = value(others, &mut place, row.0) {
            sum = sum.wrapping_add(row.1).wrapping_add(more);
        }
    }
    sum
}

fn joined_map(map: &Map, others: &Map) -> i64 {
    let mut sum = 0i64;
    for (entity, value) in map {
        if let Some(more) = others.get(entity) {
            sum = sum.wrapping_add(*value).wrapping_add(*more);
        }
    }
    sum
}

/// Every so many entities of these, each with this value.
fn rows_of(rows: u64, step: u64, value: i64) -> Rows {
    (0..rows).step_by(step as usize).map(|entity| (entity, value)).collect()
}

struct Order<'a> {
    mode: &'a str,
    rows: u64,
    times: u64,
}

/// Entities that are drawn as `storemeasure` draws them.
fn drawn(order: &Order) -> impl Iterator<Item = u64> {
    let (rows, mut seed) = (order.rows, 1u64);
    (0..order.times).map(move |_| {
        seed = seed.wrapping_mul(6364136223846793005).wrapping_add(1442695040888963407);
        (seed >> 33) % rows
    })
}

fn sum_of(order: &Order, mut once: impl FnMut() -> i64) -> i64 {
    (0..order.times).fold(0, |sum: i64, _| sum.wrapping_add(once()))
}

fn over_rows(order: &Order, mut first: Rows, second: Rows) -> Option<i64> {
    match order.mode {
        "set" => (0..order.times).for_each(|_| std::hint::black_box(&mut first).iter_mut().for_each(|row| row.1 = 7)),
        "get" => {
            let place = |entity| first.binary_search_by_key(&entity, |row| row.0).ok();
            return Some(drawn(order).filter_map(place).fold(0, |sum: i64, at| sum.wrapping_add(first[at].1)));
        }
        "put" => return Some(sum_of(order, || put_rows(&mut first, order.rows / 2).unwrap_or(0))),
        "walk" => return Some(sum_of(order, || std::hint::black_box(&first).iter().fold(0, |sum: i64, row| sum.wrapping_add(row.1)))),
        "join" => return Some(sum_of(order, || joined_rows(std::hint::black_box(&first), &second))),
        "once" => {
            for _ in 0..order.times {
                add_rows_at_once(std::hint::black_box(&mut first), &second)?;
            }
        }
        _ => {
            for _ in 0..order.times {
                add_rows(std::hint::black_box(&mut first), &second)?;
            }
        }
    }
    Some(first[0].1)
}

fn over_maps(order: &Order, mut first: Map, second: Map) -> Option<i64> {
    match order.mode {
        "set" => (0..order.times).for_each(|_| std::hint::black_box(&mut first).values_mut().for_each(|value| *value = 7)),
        "get" => return Some(drawn(order).filter_map(|entity| first.get(&entity)).fold(0, |sum: i64, value| sum.wrapping_add(*value))),
        "put" => return Some(sum_of(order, || put_map(&mut first, order.rows / 2).unwrap_or(0))),
        "walk" => return Some(sum_of(order, || std::hint::black_box(&first).values().fold(0, |sum: i64, value| sum.wrapping_add(*value)))),
        "join" => return Some(sum_of(order, || joined_map(std::hint::black_box(&first), &second))),
        _ => {
            for _ in 0..order.times {
                add_map(std::hint::black_box(&mut first), &second)?;
            }
        }
    }
    Some(first[&0])
}

fn main() {
    let mut line = String::new();
    std::io::stdin().read_to_string(&mut line).expect("a line");
    let words: Vec<&str> = line.split_whitespace().collect();
    let number = |at: usize| words[at].parse::<u64>().expect("a number");
    let order = Order { mode: words[0], rows: number(1), times: number(2) };
    let tenth = (order.rows / 10).max(1);
    let first = rows_of(order.rows, if order.mode == "few" { tenth } else { 1 }, 1);
    let second = rows_of(order.rows, if order.mode == "many" { tenth } else { 1 }, 0);
    let sum = match std::env::args().nth(1).as_deref() {
        Some("map") => over_maps(&order, first.into_iter().collect(), second.into_iter().collect()),
        _ => over_rows(&order, first, second),
    };
    println!("{}", sum.expect("a sum that fits"));
}
