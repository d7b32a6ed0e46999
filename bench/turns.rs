//! What `poets_bench_turnstile` does, in plain Rust: `turns LOCK CLERKS CALLS`. The lock is a `Mutex` of the standard
//! library, which need not be fair, or a ticket lock whose waiters yield.
use std::cell::UnsafeCell;
use std::sync::atomic::{AtomicU64, Ordering::SeqCst};
use std::sync::{Arc, Mutex};
use std::{env, thread};

/// Adds, and keeps what it added, as `Adder` of `poets_test_adder` does.
#[derive(Default)]
struct Adder {
    sum: u64,
    entries: Vec<(u32, Arc<u64>)>,
}

impl Adder {
    fn turn(&mut self, clerk: u32, call: &Arc<u64>) -> (u64, u64) {
        let place = self.entries.len() as u64;
        self.sum = self.sum.wrapping_add(**call);
        self.entries.push((clerk, Arc::clone(call)));
        (place, self.sum)
    }
}

#[derive(Default)]
struct Tickets {
    next: AtomicU64,
    serving: AtomicU64,
    machine: UnsafeCell<Adder>,
}

// The machine is touched only by the thread whose ticket is served.
unsafe impl Sync for Tickets {}

trait Turn: Default + Sync {
    fn call(&self, clerk: u32, call: &Arc<u64>) -> (u64, u64);
    fn close(self) -> Adder;
}

impl Turn for Tickets {
    fn call(&self, clerk: u32, call: &Arc<u64>) -> (u64, u64) {
        let ticket = self.next.fetch_add(1, SeqCst);
        while self.serving.load(SeqCst) != ticket {
            thread::yield_now();
        }
        let kept = unsafe { &mut *self.machine.get() }.turn(clerk, call);
        self.serving.store(ticket + 1, SeqCst);
        kept
    }

    fn close(self) -> Adder {
        self.machine.into_inner()
    }
}

impl Turn for Mutex<Adder> {
    fn call(&self, clerk: u32, call: &Arc<u64>) -> (u64, u64) {
        self.lock().unwrap().turn(clerk, call)
    }

    fn close(self) -> Adder {
        self.into_inner().unwrap()
    }
}

fn counted<T: Turn>(clerks: u32, calls: u32) -> Adder {
    let (turn, one) = (T::default(), Arc::new(1));
    thread::scope(|scope| {
        for clerk in 1..=clerks {
            let (turn, one) = (&turn, &one);
            scope.spawn(move || (0..calls / clerks).for_each(|_| assert!(turn.call(clerk, one).1 > 0)));
        }
    });
    turn.close()
}

fn main() {
    let words: Vec<String> = env::args().collect();
    let (clerks, calls) = (words[2].parse().unwrap(), words[3].parse().unwrap());
    let adder = match words[1].as_str() {
        "mutex" => counted::<Mutex<Adder>>(clerks, calls),
        "ticket" => counted::<Tickets>(clerks, calls),
        _ => panic!("usage: turns mutex|ticket CLERKS CALLS"),
    };
    println!("{} calls, sum {}", adder.entries.len(), adder.sum);
}
