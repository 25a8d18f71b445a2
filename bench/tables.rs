// The loops of crates/table_speed over the standard library's hash map, whose keys are the same kind of value.
use std::collections::HashMap;
use std::hint::black_box;
use std::time::Instant;

#[derive(Clone, Copy, PartialEq, Eq, Hash)]
#[allow(dead_code)]
enum Value {
    Nil,
    Bool(bool),
    Int(i64),
    Text(u64),
    Table(u32),
}

fn timed<T>(what: &str, run: impl FnOnce() -> T) -> T {
    let start = Instant::now();
    let answer = run();
    eprintln!("{what} {} ms", start.elapsed().as_millis());
    answer
}

fn main() {
    let n: i64 = std::env::args().nth(1).expect("N").parse().expect("a number");
    let mut list: HashMap<Value, Value> = HashMap::new();
    timed("append", || {
        for i in 1..=n {
            list.insert(Value::Int(i), Value::Int(i));
        }
    });
    let sum = timed("read", || {
        let mut sum = 0i64;
        for i in 1..=n {
            if let Some(Value::Int(value)) = list.get(&Value::Int(i)) {
                sum = sum.wrapping_add(*value);
            }
        }
        sum
    });
    let met = timed("walk", || list.iter().filter(|(_, value)| **value != Value::Nil).count());
    timed("remove", || {
        for i in (1..=n).rev() {
            list.remove(&Value::Int(i));
        }
    });
    let mut named: HashMap<Value, Value> = HashMap::new();
    named.insert(Value::Text(0), Value::Bool(true));
    let found = timed("text", || {
        let mut found = 0u64;
        for _ in 0..n {
            if named.get(black_box(&Value::Text(0))).is_some() {
                found += 1;
            }
        }
        found
    });
    println!("sum {sum}, met {met}, left {}, found {found}", list.len());
}
