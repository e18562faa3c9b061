//! The loop of `bench_turn` over a `Mutex` of std: each worker notes that it begins, counts its holds, and notes that it ends.

use std::env;
use std::sync::Mutex;
use std::thread;
use std::time::Instant;

#[derive(Clone, Copy)]
enum Mark {
    Begins,
    Ends(u64),
}

struct Register {
    counted: u64,
    marks: Vec<Mark>,
}

fn work(register: &Mutex<Register>, holds: u64) {
    let began = {
        let mut held = register.lock().unwrap();
        held.marks.push(Mark::Begins);
        held.marks.len() as u64 - 1
    };
    for _ in 0..holds {
        let mut held = register.lock().unwrap();
        held.counted = held.counted.wrapping_add(1);
    }
    register.lock().unwrap().marks.push(Mark::Ends(began));
}

fn main() {
    let mut words = env::args().skip(1);
    let workers: usize = words.next().and_then(|word| word.parse().ok()).unwrap_or(4);
    let holds: u64 = words.next().and_then(|word| word.parse().ok()).unwrap_or(1000);
    let start = Instant::now();
    let register = Mutex::new(Register { counted: 0, marks: Vec::new() });
    thread::scope(|scope| {
        for _ in 0..workers {
            scope.spawn(|| work(&register, holds));
        }
    });
    let register = register.into_inner().unwrap();
    let ended = register.marks.iter().filter(|mark| matches!(mark, Mark::Ends(began) if *began < 2 * workers as u64)).count();
    println!("{workers} workers made {} holds and {} marks, {ended} of them at an end", register.counted, register.marks.len());
    println!("{} ns", start.elapsed().as_nanos());
}
