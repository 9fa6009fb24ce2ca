//! A pool of workers in plain Rust, by the same table as the proved one: one list of tasks and one core, each under a
//! lock; a worker takes its own newest task, else the oldest, else any ready frame. It keeps the core's lock over the steps
//! that follow each other at once (the next step of its frame, or else of its newest task), at most 32; wakes another at a
//! frame that became ready only where one sleeps; and looks at a lock that is taken 12 times, 256 pauses apart, before it
//! sleeps. Frames are typed values in a `Vec` for each tenant, with no words, journals or proofs. Leaves are searched by
//! `vectors.rs`. Each value is compared with that of a serial search.
//!
//! usage: pool WORKERS GRAIN DEPTH, which prints the microseconds until 40 positions are answered that four seats ask; or
//! pool positions, which prints them
#[path = "../search/searches.rs"]
#[macro_use]
mod searches;
mod plain;
#[path = "../search/vectors.rs"]
mod vectors;

use plain::{Core, Did, INF, Leaf, Name, Outcome, Task, Tenant, choices, play};
use std::sync::atomic::{AtomicUsize, Ordering};
use std::sync::{Condvar, Mutex, MutexGuard};
use std::time::Instant;

const SEATS: usize = 4;
const POSITIONS: usize = 40;
const HELD_STEPS: usize = 32;
const LOOKS: u32 = 12;
const PAUSES: u32 = 256;

struct Pool {
    core: Mutex<Core>,
    ready: Condvar,
    ended: Condvar,
    list: Mutex<Vec<Task>>,
    sleepers: AtomicUsize,
}

/// What a worker goes on with behind some steps under one lock.
enum Next {
    Nothing,
    Do(Deed),
    Compute(Name, Leaf),
}

enum Deed {
    Get(Task),
    Run(Name),
    Bring(Name, i32, u8),
    TakeIn(Name),
    Finish(Name),
}

fn lock<T>(mutex: &Mutex<T>) -> MutexGuard<'_, T> {
    for _ in 0..LOOKS {
        if let Ok(guard) = mutex.try_lock() {
            return guard;
        }
        (0..PAUSES).for_each(|_| std::hint::spin_loop());
    }
    mutex.lock().unwrap()
}

fn searched((own, opp): (u64, u64), depth: u8, alpha: i32, beta: i32) -> (i32, u8) {
    let (score, choice) = vectors::search(own, opp, u32::from(depth), alpha, beta, &mut 0);
    (score, choice as u8)
}

/// What a step did, and the frame that it was for; a job that can't go on is spent.
fn step(core: &mut Core, worker: u8, deed: &Deed) -> (Did, Name) {
    let (did, name) = match *deed {
        Deed::Get(task) => (core.take(worker, task), task.name),
        Deed::Run(name) => (core.advance(worker, name), name),
        Deed::Bring(name, score, choice) => (core.answer(worker, name, score, choice), name),
        Deed::TakeIn(name) => (core.inlet(worker, name), name),
        Deed::Finish(name) => (core.finish(name), name),
    };
    let did = did.unwrap_or_else(|refused| refused);
    if let Did::Short = did {
        core.spend(name);
    }
    (did, name)
}

impl Pool {
    fn push(&self, name: Name, home: u8) {
        lock(&self.list).push(Task { name, home });
    }

    fn next_task(&self, worker: u8) -> Option<Task> {
        {
            let mut list = lock(&self.list);
            if !list.is_empty() {
                let place = list.iter().rposition(|task| task.home == worker).unwrap_or(0);
                return Some(list.remove(place));
            }
        }
        let mut core = lock(&self.core);
        loop {
            if core.closed {
                return None;
            }
            if let Some(task) = core.any_ready() {
                return Some(task);
            }
            self.sleepers.fetch_add(1, Ordering::Relaxed);
            core = self.ready.wait(core).unwrap();
            self.sleepers.fetch_sub(1, Ordering::Relaxed);
        }
    }

    /// The worker's own newest task.
    fn own_task(&self, worker: u8) -> Option<Task> {
        let mut list = lock(&self.list);
        let place = list.iter().rposition(|task| task.home == worker)?;
        Some(list.remove(place))
    }

    /// Steps that follow each other at once, under one lock: until a leaf is to be computed, or the worker has neither a
    /// frame nor a task of its own, or so many are done. Those who wait are woken behind them.
    fn steps(&self, worker: u8, first: Deed) -> Next {
        let mut core = lock(&self.core);
        let (mut next, mut readied, mut ended) = (Next::Do(first), 0, false);
        for _ in 0..HELD_STEPS {
            if let Next::Nothing = next {
                let Some(task) = self.own_task(worker) else { break };
                readied -= 1;
                next = Next::Do(Deed::Get(task));
            }
            let Next::Do(deed) = &next else { break };
            next = match step(&mut core, worker, deed) {
                (Did::Took | Did::Went | Did::Answered, name) => Next::Do(Deed::Run(name)),
                (Did::Spawned(child), name) => {
                    readied += 1;
                    self.push(child, worker);
                    Next::Do(Deed::Run(name))
                }
                (Did::Computing(leaf), name) => Next::Compute(name, leaf),
                (Did::Returned(true), name) => Next::Do(Deed::Finish(name)),
                (Did::Returned(false), name) => Next::Do(Deed::TakeIn(name)),
                (Did::TakenIn(Some(parent)), _) => {
                    readied += 1;
                    self.push(parent, worker);
                    Next::Nothing
                }
                (did, _) => {
                    ended |= matches!(did, Did::Finished | Did::Short);
                    Next::Nothing
                }
            };
        }
        let wakes = self.sleepers.load(Ordering::Relaxed).min(usize::try_from(readied).unwrap_or(0));
        drop(core);
        (0..wakes).for_each(|_| self.ready.notify_one());
        if ended {
            self.ended.notify_all();
        }
        next
    }

    fn work(&self, worker: u8) {
        while let Some(task) = self.next_task(worker) {
            let mut next = Next::Do(Deed::Get(task));
            loop {
                next = match next {
                    Next::Nothing => break,
                    Next::Do(deed) => self.steps(worker, deed),
                    Next::Compute(name, leaf) => {
                        let (score, choice) = searched(leaf.board, leaf.depth, leaf.alpha, leaf.beta);
                        Next::Do(Deed::Bring(name, score, choice))
                    }
                };
            }
        }
    }

    fn ask(&self, tenant: usize, board: (u64, u64), depth: u8) -> Outcome {
        let mut core = self.core.lock().unwrap();
        core.submit(tenant, board, depth);
        self.ready.notify_one();
        while core.tenants[tenant].outcome == Some(Outcome::Pending) {
            core = self.ended.wait(core).unwrap();
        }
        core.tenants[tenant].outcome.expect("an outcome")
    }
}

/// Mid-game positions: played out from the opening by choices that a generator picks, 24 to 38 plies.
fn positions() -> Vec<(u64, u64)> {
    let mut random = 1u64;
    let mut found = Vec::new();
    while found.len() < POSITIONS {
        let plies = 24 + found.len() % 15;
        let (mut own, mut opp) = (1 << 28 | 1 << 35, 1 << 27 | 1 << 36);
        for _ in 0..plies {
            let all = choices(own, opp);
            if all.is_empty() {
                break;
            }
            random = random.wrapping_mul(6_364_136_223_846_793_005).wrapping_add(1_442_695_040_888_963_407);
            (own, opp) = play(own, opp, all[(random >> 33) as usize % all.len()]);
        }
        if !choices(own, opp).is_empty() {
            found.push((own, opp));
        }
    }
    found
}

fn main() {
    let words: Vec<String> = std::env::args().collect();
    let positions = positions();
    if words[1] == "positions" {
        for (own, opp) in positions {
            println!("{own} {opp}");
        }
        return;
    }
    let (workers, grain, depth) = (words[1].parse().unwrap(), words[2].parse().unwrap(), words[3].parse().unwrap());
    let wanted: Vec<_> = positions.iter().map(|board| searched(*board, depth, -INF, INF)).collect();
    let pool = Pool {
        core: Mutex::new(Core { grain, tenants: (0..SEATS).map(|_| Tenant::default()).collect(), closed: false }),
        ready: Condvar::new(),
        ended: Condvar::new(),
        list: Mutex::new(Vec::new()),
        sleepers: AtomicUsize::new(0),
    };
    let start = Instant::now();
    std::thread::scope(|scope| {
        let pool = &pool;
        for worker in 1..=workers {
            scope.spawn(move || pool.work(worker));
        }
        std::thread::scope(|seats| {
            for seat in 0..SEATS {
                let (positions, wanted) = (&positions, &wanted);
                seats.spawn(move || {
                    for at in (seat..positions.len()).step_by(SEATS) {
                        let outcome = pool.ask(seat, positions[at], depth);
                        assert!(outcome == Outcome::Spent || outcome == Outcome::Done(wanted[at].0, wanted[at].1), "position {at}");
                    }
                });
            }
        });
        pool.core.lock().unwrap().closed = true;
        pool.ready.notify_all();
    });
    println!("{}", start.elapsed().as_micros());
}
