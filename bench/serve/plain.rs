//! The plain core: frames as typed values in a `Vec` for each tenant, and what each step does to them.
use crate::vectors;

pub const INF: i32 = 200_000;
const NONE: u8 = 65;
const PASS: u8 = 64;
const NODES: u32 = 65_536;
const CORNERS: u64 = 0x8100_0000_0000_0081;

pub fn play(own: u64, opp: u64, choice: u8) -> (u64, u64) {
    if choice == PASS {
        return (opp, own);
    }
    let flips = vectors::flips(own, opp, u32::from(choice));
    (opp & !flips, own | flips | 1 << choice)
}

/// The choices in order: legal corners, then the others by rising index; a pass; none where the game is over.
pub fn choices(own: u64, opp: u64) -> Vec<u8> {
    let word = vectors::moves(own, opp);
    if word == 0 {
        return if vectors::moves(opp, own) == 0 { Vec::new() } else { vec![PASS] };
    }
    let squares = |part: u64| (0..64).filter(move |square| part >> square & 1 == 1);
    squares(word & CORNERS).chain(squares(word & !CORNERS)).collect()
}

#[derive(Clone, Copy, PartialEq)]
enum State { Ready(u8), Running(u8), Computing(u8), Waiting, Returned }

#[derive(Clone, Copy, PartialEq)]
enum Role { Root, First, Test, Again }

#[derive(Clone, Copy, PartialEq)]
enum Phase { New, Computing, First, Tests, Done }

#[derive(Clone, Copy, PartialEq)]
enum Status { Unspawned, Runs, Settled, Failed, RunsAgain }

struct Frame {
    serial: u64,
    parent: Option<usize>,
    children: Vec<usize>,
    state: State,
    board: (u64, u64),
    depth: u8,
    alpha: i32,
    beta: i32,
    role: Role,
    number: usize,
    phase: Phase,
    best: i32,
    choice: u8,
    choices: Vec<u8>,
    statuses: Vec<Status>,
}

#[derive(Clone, Copy)]
pub struct Name {
    pub tenant: usize,
    pub slot: usize,
    serial: u64,
}

#[derive(Clone, Copy)]
pub struct Task {
    pub name: Name,
    pub home: u8,
}

#[derive(Clone, Copy)]
pub struct Leaf {
    pub board: (u64, u64),
    pub depth: u8,
    pub alpha: i32,
    pub beta: i32,
}

#[derive(Clone, Copy, PartialEq, Debug)]
pub enum Outcome {
    Pending,
    Done(i32, u8),
    Spent,
}

pub enum Did {
    Took,
    Went,
    Spawned(Name),
    Waited,
    Computing(Leaf),
    Returned(bool),
    Answered,
    TakenIn(Option<Name>),
    Finished,
    Refused,
    Short,
}

#[derive(Default)]
pub struct Tenant {
    slots: Vec<Option<Frame>>,
    free: Vec<usize>,
    ready: Vec<usize>,
    serials: u64,
    nodes_left: u32,
    steps_left: u32,
    pub outcome: Option<Outcome>,
}

pub struct Core {
    pub grain: u8,
    pub tenants: Vec<Tenant>,
    pub closed: bool,
}

impl Tenant {
    fn open(&mut self, mut frame: Frame) -> (usize, u64) {
        self.serials += 1;
        self.nodes_left -= 1;
        frame.serial = self.serials;
        let slot = self.free.pop().unwrap_or_else(|| {
            self.slots.push(None);
            self.slots.len() - 1
        });
        if let Some(parent) = frame.parent {
            self.at(parent).children.push(slot);
        }
        self.slots[slot] = Some(frame);
        self.ready.push(slot);
        (slot, self.serials)
    }

    fn at(&mut self, slot: usize) -> &mut Frame {
        self.slots[slot].as_mut().expect("a frame")
    }

    fn find(&mut self, name: Name) -> Option<&mut Frame> {
        self.slots.get_mut(name.slot)?.as_mut().filter(|frame| frame.serial == name.serial)
    }

    /// The frame of this name, which takes a step in this state.
    fn stepping(&mut self, name: Name, state: State) -> Result<&mut Frame, Did> {
        let steps = self.steps_left;
        let frame = self.find(name).filter(|frame| frame.state == state).ok_or(Did::Refused)?;
        if steps == 0 { Err(Did::Short) } else { Ok(frame) }
    }

    fn set_state(&mut self, slot: usize, state: State) {
        self.ready.retain(|other| *other != slot);
        if let State::Ready(_) = state {
            self.ready.push(slot);
        }
        self.at(slot).state = state;
    }

    fn remove(&mut self, slot: usize) {
        let frame = self.slots[slot].take().expect("a frame");
        self.ready.retain(|other| *other != slot);
        self.free.push(slot);
        if let Some(parent) = frame.parent {
            if let Some(above) = self.slots[parent].as_mut() {
                above.children.retain(|other| *other != slot);
            }
        }
        for child in frame.children {
            self.remove(child);
        }
    }
}

/// A frame that is to be opened: of a board, with a window.
fn frame_of(parent: Option<usize>, home: u8, board: (u64, u64), depth: u8, (alpha, beta): (i32, i32), (role, number): (Role, usize)) -> Frame {
    Frame {
        serial: 0,
        parent,
        children: Vec::new(),
        state: State::Ready(home),
        board,
        depth,
        alpha,
        beta,
        role,
        number,
        phase: Phase::New,
        best: -1_000_000,
        choice: NONE,
        choices: Vec::new(),
        statuses: Vec::new(),
    }
}

fn child_of(parent: &mut Frame, slot: usize, (role, status): (Role, Status), number: usize, window: (i32, i32), home: u8) -> Frame {
    parent.statuses[number] = status;
    let choice = parent.choices[number];
    let depth = parent.depth - u8::from(choice != PASS);
    frame_of(Some(slot), home, play(parent.board.0, parent.board.1, choice), depth, window, (role, number))
}

/// Whether there is one left.
fn has(nodes: u32) -> Result<(), Did> {
    if nodes == 0 { Err(Did::Short) } else { Ok(()) }
}

impl Core {
    pub fn submit(&mut self, tenant: usize, board: (u64, u64), depth: u8) {
        let frame = frame_of(None, 0, board, depth, (-INF, INF), (Role::Root, 0));
        self.tenants[tenant] = Tenant { nodes_left: NODES, steps_left: 16 * NODES, outcome: Some(Outcome::Pending), serials: self.tenants[tenant].serials, ..Tenant::default() };
        self.tenants[tenant].open(frame);
    }

    pub fn any_ready(&mut self) -> Option<Task> {
        for tenant in 0..self.tenants.len() {
            if let Some(slot) = self.tenants[tenant].ready.last().copied() {
                let frame = self.tenants[tenant].at(slot);
                let State::Ready(home) = frame.state else { continue };
                return Some(Task { name: Name { tenant, slot, serial: frame.serial }, home });
            }
        }
        None
    }

    fn tick(&mut self, tenant: usize) {
        self.tenants[tenant].steps_left -= 1;
    }

    pub fn take(&mut self, worker: u8, task: Task) -> Result<Did, Did> {
        let own = &mut self.tenants[task.name.tenant];
        own.stepping(task.name, State::Ready(task.home))?;
        own.set_state(task.name.slot, State::Running(worker));
        self.tick(task.name.tenant);
        Ok(Did::Took)
    }

    pub fn advance(&mut self, worker: u8, name: Name) -> Result<Did, Did> {
        let grain = self.grain;
        let own = &mut self.tenants[name.tenant];
        let nodes = own.nodes_left;
        let frame = own.stepping(name, State::Running(worker))?;
        let floor = frame.alpha.max(frame.best);
        let did = match frame.phase {
            Phase::New => {
                frame.choices = choices(frame.board.0, frame.board.1);
                if frame.depth <= grain || frame.choices.is_empty() {
                    frame.phase = Phase::Computing;
                    frame.state = State::Computing(worker);
                    Did::Computing(Leaf { board: frame.board, depth: frame.depth, alpha: frame.alpha, beta: frame.beta })
                } else {
                    frame.phase = Phase::First;
                    frame.best = -INF;
                    frame.statuses = vec![Status::Unspawned; frame.choices.len()];
                    Did::Went
                }
            }
            Phase::First if frame.statuses[0] == Status::Unspawned => {
                has(nodes)?;
                let child = child_of(frame, name.slot, (Role::First, Status::Runs), 0, (-frame.beta, -frame.alpha), worker);
                self.spawned(name.tenant, child)
            }
            Phase::Tests => {
                let open = frame.statuses.iter().position(|status| *status != Status::Settled);
                let next = frame.statuses.iter().position(|status| *status == Status::Unspawned);
                match (open, next) {
                    (None, _) => {
                        frame.phase = Phase::Done;
                        self.returned(name)
                    }
                    (Some(at), _) if frame.statuses[at] == Status::Failed => {
                        has(nodes)?;
                        let child = child_of(frame, name.slot, (Role::Again, Status::RunsAgain), at, (-frame.beta, -floor), worker);
                        self.spawned(name.tenant, child)
                    }
                    (_, Some(at)) => {
                        has(nodes)?;
                        let child = child_of(frame, name.slot, (Role::Test, Status::Runs), at, (-(floor + 1), -floor), worker);
                        self.spawned(name.tenant, child)
                    }
                    _ => self.waits(name),
                }
            }
            Phase::First => self.waits(name),
            Phase::Done | Phase::Computing => self.returned(name),
        };
        self.tick(name.tenant);
        Ok(did)
    }

    fn spawned(&mut self, tenant: usize, child: Frame) -> Did {
        let (slot, serial) = self.tenants[tenant].open(child);
        Did::Spawned(Name { tenant, slot, serial })
    }

    fn waits(&mut self, name: Name) -> Did {
        let frame = self.tenants[name.tenant].at(name.slot);
        if frame.children.is_empty() {
            return Did::Went;
        }
        frame.state = State::Waiting;
        Did::Waited
    }

    fn returned(&mut self, name: Name) -> Did {
        let frame = self.tenants[name.tenant].at(name.slot);
        if !frame.children.is_empty() {
            frame.state = State::Waiting;
            return Did::Waited;
        }
        frame.state = State::Returned;
        Did::Returned(frame.parent.is_none())
    }

    pub fn answer(&mut self, worker: u8, name: Name, score: i32, choice: u8) -> Result<Did, Did> {
        let frame = self.tenants[name.tenant].stepping(name, State::Computing(worker))?;
        (frame.best, frame.choice, frame.phase, frame.state) = (score, choice, Phase::Done, State::Running(worker));
        self.tick(name.tenant);
        Ok(Did::Answered)
    }

    pub fn inlet(&mut self, worker: u8, name: Name) -> Result<Did, Did> {
        let own = &mut self.tenants[name.tenant];
        let child = own.stepping(name, State::Returned)?;
        let (score, role, number, least) = (-child.best, child.role, child.number, -child.beta);
        let above = child.parent.expect("a parent");
        own.remove(name.slot);
        let parent = own.at(above);
        let floor = parent.alpha.max(parent.best);
        if score >= parent.beta {
            (parent.best, parent.choice) = (score, parent.choices[number]);
            parent.statuses[number] = Status::Settled;
            parent.phase = Phase::Done;
            for other in std::mem::take(&mut parent.children) {
                own.remove(other);
            }
        } else if role != Role::Test {
            if score > floor {
                parent.choice = parent.choices[number];
            }
            parent.best = parent.best.max(score);
            parent.statuses[number] = Status::Settled;
            parent.phase = Phase::Tests;
        } else if score <= least {
            parent.best = parent.best.max(score);
            parent.statuses[number] = Status::Settled;
        } else {
            parent.statuses[number] = Status::Failed;
        }
        let woken = own.at(above).state == State::Waiting;
        if woken {
            own.set_state(above, State::Ready(worker));
        }
        let serial = own.at(above).serial;
        self.tick(name.tenant);
        Ok(Did::TakenIn(woken.then_some(Name { tenant: name.tenant, slot: above, serial })))
    }

    pub fn finish(&mut self, name: Name) -> Result<Did, Did> {
        let own = &mut self.tenants[name.tenant];
        let frame = own.find(name).filter(|frame| frame.state == State::Returned).ok_or(Did::Refused)?;
        let outcome = Outcome::Done(frame.best, frame.choice);
        own.remove(name.slot);
        own.outcome = Some(outcome);
        self.tick(name.tenant);
        Ok(Did::Finished)
    }

    pub fn spend(&mut self, name: Name) {
        let own = &mut self.tenants[name.tenant];
        if own.find(name).is_some() {
            *own = Tenant { outcome: Some(Outcome::Spent), serials: own.serials, ..Tenant::default() };
        }
    }
}
