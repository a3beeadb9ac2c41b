//! A block of a plain program: its instances, their ports, and the turns that they make. Each turn does what one of this project
//! does: a stored closure is shown a frame and answers a step, whose actions are carried out and noted.
use crate::log::{Kind, Log, Trigger, Turn};
use crate::systems::{Does, Place, Set, System};
use crate::values::{
    Action, Destination, Done, Frame, Item, Next, Pid, ShortList, Signal, Step, Value, Via,
};
use std::collections::VecDeque;

type Transition = Box<dyn Fn(&Frame) -> Step + Send>;

struct Instance {
    pid: Pid,
    parent: Pid,
    offspring: Pid,
    sender: Pid,
    /// None before its start.
    state: Option<u32>,
    variables: ShortList<Value, 8>,
    port: VecDeque<Item>,
    start: Transition,
    row: Transition,
    route: u32,
    first: Place,
}

pub struct Block {
    number: u32,
    /// The instance at the end of each route that leads here.
    receivers: Vec<usize>,
    instances: Vec<Instance>,
    outputs: u64,
    greatest_stamp: u64,
    turns_left: u32,
    pub log: Log,
    /// What the last turn sent, and where it goes first.
    pub sent: VecDeque<(Place, Item)>,
}

/// A step with these actions that leads to the one state.
fn step_with(actions: ShortList<Action, 8>) -> Step {
    Step {
        actions,
        variables: ShortList::new(),
        next: Next::State(0),
    }
}

fn output(signal: u32, number: i64) -> Step {
    step_with(ShortList::of(Action::Output {
        signal: Signal::with(signal, number),
        destination: Destination::Anywhere,
        via: Via::Any,
    }))
}

fn start_of(set: &Set) -> Transition {
    let signal = set.signal;
    match set.does {
        Does::CountFromStart => Box::new(move |_| output(signal, 0)),
        Does::Forward | Does::Count => Box::new(|_| step_with(ShortList::new())),
    }
}

fn row_of(set: &Set) -> Transition {
    let signal = set.signal;
    let more = match set.does {
        Does::Forward => 0,
        Does::Count | Does::CountFromStart => 1,
    };
    Box::new(move |frame| match &frame.signal {
        Some(consumed) => output(signal, consumed.number().wrapping_add(more)),
        None => step_with(ShortList::new()),
    })
}

fn instance_of(number: usize, set: &Set) -> Instance {
    Instance {
        pid: Pid::Instance {
            set: number as u32,
            serial: 1,
        },
        parent: Pid::Null,
        offspring: Pid::Null,
        sender: Pid::Null,
        state: None,
        variables: ShortList::new(),
        port: VecDeque::new(),
        start: start_of(set),
        row: row_of(set),
        route: set.route,
        first: set.first,
    }
}

impl Block {
    /// The block of this number, none of whose instances has started.
    pub fn new(system: &System, number: usize, kind: Kind, budget: u32) -> Block {
        let own: Vec<usize> = (0..system.sets.len())
            .filter(|set| system.sets[*set].block == number)
            .collect();
        let place_of = |set: &usize| own.iter().position(|other| other == set).unwrap_or(0);
        Block {
            number: number as u32,
            receivers: system.receivers.iter().map(place_of).collect(),
            instances: own
                .iter()
                .map(|set| instance_of(*set, &system.sets[*set]))
                .collect(),
            outputs: 0,
            greatest_stamp: 0,
            turns_left: budget,
            log: Log::new(kind),
            sent: VecDeque::new(),
        }
    }

    /// Whether it may make more turns.
    pub fn may_turn(&self) -> bool {
        self.turns_left > 0
    }

    /// The item enters the port of the instance at the end of its route.
    pub fn arrive(&mut self, item: Item) {
        self.greatest_stamp = self.greatest_stamp.max(item.stamp + 1);
        let instance = &mut self.instances[self.receivers[item.route as usize]];
        self.log.enter(&item, instance.pid);
        instance.port.push_back(item);
    }

    /// The first instance that is ready makes its start, or consumes the signal at the front of its port. False where none is.
    pub fn turn(&mut self) -> bool {
        let is_ready = |instance: &Instance| instance.state.is_none() || !instance.port.is_empty();
        let Some(place) = self.instances.iter().position(is_ready) else {
            return false;
        };
        self.turns_left -= 1;
        let instance = &mut self.instances[place];
        let trigger = instance.take_trigger();
        let frame = instance.frame(&trigger);
        let step = match trigger {
            Trigger::Start => (instance.start)(&frame),
            Trigger::Fire(_) => (instance.row)(&frame),
        };
        let pid = instance.pid;
        let done = self.carry_out(place, &step);
        self.proceed(place, &step);
        self.log.turn(Turn {
            pid,
            trigger: &trigger,
            frame: &frame,
            step: &step,
            done: &done,
        });
        true
    }

    fn carry_out(&mut self, place: usize, step: &Step) -> ShortList<Done, 8> {
        let instance = &self.instances[place];
        let mut done = ShortList::new();
        for action in step.actions.as_slice() {
            if let Action::Output { signal, .. } = action {
                let item = Item {
                    worker: self.number,
                    number: self.outputs,
                    stamp: self.greatest_stamp,
                    signal: *signal,
                    sender: instance.pid,
                    to: None,
                    route: instance.route,
                };
                self.outputs += 1;
                done.push(Done::Sent(item));
                self.sent.push_back((instance.first, item));
            }
        }
        done
    }

    fn proceed(&mut self, place: usize, step: &Step) {
        let instance = &mut self.instances[place];
        instance.variables = step.variables;
        if let Next::State(state) = step.next {
            instance.state = Some(state);
        }
    }
}

impl Instance {
    /// What its next turn begins with. It is ready.
    fn take_trigger(&mut self) -> Trigger {
        if self.state.is_none() {
            return Trigger::Start;
        }
        match self.port.pop_front() {
            Some(item) => {
                self.sender = item.sender;
                Trigger::Fire(item)
            }
            None => Trigger::Start,
        }
    }

    fn frame(&self, trigger: &Trigger) -> Frame {
        Frame {
            own: self.pid,
            parent: self.parent,
            offspring: self.offspring,
            sender: self.sender,
            state: self.state,
            variables: self.variables,
            signal: match trigger {
                Trigger::Start => None,
                Trigger::Fire(item) => Some(item.signal),
            },
        }
    }
}
