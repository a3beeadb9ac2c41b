//! The three ways in which a block keeps its log, and the text of a log.
use crate::systems::System;
use crate::values::{Action, Done, Frame, Item, Next, Pid, ShortList, Step, Value};
use std::io::{Result, Write};

/// What a turn begins with.
#[derive(Clone, Copy)]
pub enum Trigger {
    Start,
    Fire(Item),
}

/// A turn, by its parts, where they stand.
pub struct Turn<'a> {
    pub pid: Pid,
    pub trigger: &'a Trigger,
    pub frame: &'a Frame,
    pub step: &'a Step,
    pub done: &'a ShortList<Done, 8>,
}

/// An event with all that belongs to it.
#[allow(dead_code)]
enum Event {
    Entered(Item, Pid),
    Turn {
        pid: Pid,
        trigger: Trigger,
        frame: Frame,
        step: Step,
        done: ShortList<Done, 8>,
    },
}

/// How a log is kept.
#[derive(Clone, Copy, PartialEq)]
pub enum Kind {
    /// 24 bytes an event. It is compared with a run without `--trace`, which only counts its events.
    Short,
    /// Arrivals apart from turns, and the actions of all turns in one list. It is compared with a run with `--trace`.
    Packed,
    /// A list of whole events.
    Whole,
}

/// What a packed log keeps in the order of all events: an arrival, or that a turn was made.
enum Note {
    Entered(Item, Pid),
    Turn,
}

/// What a packed log keeps of a turn by itself, and how long its parts of the long lists are. (It is never read but in part.)
#[allow(dead_code)]
struct Head {
    pid: Pid,
    trigger: Trigger,
    frame: Frame,
    variables: ShortList<Value, 8>,
    next: Next,
    actions: usize,
    done: usize,
}

#[derive(Default)]
struct Packed {
    notes: Vec<Note>,
    heads: Vec<Head>,
    actions: Vec<Action>,
    done: Vec<Done>,
}

impl Packed {
    fn add(&mut self, turn: Turn) {
        self.notes.push(Note::Turn);
        self.actions.extend_from_slice(turn.step.actions.as_slice());
        self.done.extend_from_slice(turn.done.as_slice());
        self.heads.push(Head {
            pid: turn.pid,
            trigger: *turn.trigger,
            frame: *turn.frame,
            variables: turn.step.variables,
            next: turn.step.next,
            actions: turn.step.actions.as_slice().len(),
            done: turn.done.as_slice().len(),
        });
    }
}

/// The log of a block.
pub struct Log {
    kind: Kind,
    short: Vec<[u64; 3]>,
    packed: Packed,
    whole: Vec<Event>,
}

impl Log {
    pub fn new(kind: Kind) -> Log {
        Log {
            kind,
            short: Vec::new(),
            packed: Packed::default(),
            whole: Vec::new(),
        }
    }

    /// The item entered the port of the instance.
    pub fn enter(&mut self, item: &Item, pid: Pid) {
        match self.kind {
            Kind::Short => self.short.push([item.number, item.stamp, 0]),
            Kind::Packed => self.packed.notes.push(Note::Entered(*item, pid)),
            Kind::Whole => self.whole.push(Event::Entered(*item, pid)),
        }
    }

    /// An instance made a turn.
    pub fn turn(&mut self, turn: Turn) {
        match self.kind {
            Kind::Short => self.short.push(short_of(&turn)),
            Kind::Packed => self.packed.add(turn),
            Kind::Whole => self.whole.push(whole_of(&turn)),
        }
    }

    /// How many events there are.
    pub fn len(&self) -> usize {
        self.short.len() + self.packed.notes.len() + self.whole.len()
    }

    /// Writes a line for each event, as `--trace` does. A short log has none to show.
    pub fn write<W: Write>(&self, text: &mut Text<W>) -> Result<()> {
        for event in &self.whole {
            match event {
                Event::Entered(item, pid) => text.enter(item, *pid)?,
                Event::Turn {
                    pid, trigger, done, ..
                } => text.turn(*pid, trigger, done.as_slice())?,
            }
        }
        self.packed.write(text)
    }
}

fn short_of(turn: &Turn) -> [u64; 3] {
    match turn.trigger {
        Trigger::Start => [0, 0, 1],
        Trigger::Fire(item) => [item.number, item.stamp, 1],
    }
}

fn whole_of(turn: &Turn) -> Event {
    Event::Turn {
        pid: turn.pid,
        trigger: *turn.trigger,
        frame: *turn.frame,
        step: *turn.step,
        done: *turn.done,
    }
}

impl Packed {
    fn write<W: Write>(&self, text: &mut Text<W>) -> Result<()> {
        let mut heads = self.heads.iter();
        let mut done = self.done.as_slice();
        for note in &self.notes {
            match note {
                Note::Entered(item, pid) => text.enter(item, *pid)?,
                Note::Turn => {
                    if let Some(head) = heads.next() {
                        let (own, rest) = done.split_at(head.done);
                        text.turn(head.pid, &head.trigger, own)?;
                        done = rest;
                    }
                }
            }
        }
        Ok(())
    }
}

/// Where the text of a block's log goes.
pub struct Text<'a, W> {
    pub output: &'a mut W,
    pub system: &'a System,
    pub block: &'a str,
}

impl<W: Write> Text<'_, W> {
    fn enter(&mut self, item: &Item, pid: Pid) -> Result<()> {
        let signal = &self.system.signals[item.signal.id as usize];
        write!(self.output, "{} enter {signal}", self.block)?;
        self.end_with(pid)
    }

    fn turn(&mut self, pid: Pid, trigger: &Trigger, done: &[Done]) -> Result<()> {
        match trigger {
            Trigger::Start => write!(self.output, "{} start", self.block)?,
            Trigger::Fire(item) => {
                let signal = &self.system.signals[item.signal.id as usize];
                write!(self.output, "{} fire {signal}", self.block)?;
            }
        }
        self.end_with(pid)?;
        for done in done {
            if let Done::Sent(item) = done {
                let signal = &self.system.signals[item.signal.id as usize];
                writeln!(self.output, "{} sent {signal} {}", self.block, item.route)?;
            }
        }
        Ok(())
    }

    fn end_with(&mut self, pid: Pid) -> Result<()> {
        match pid {
            Pid::Null => writeln!(self.output, " null"),
            Pid::Env => writeln!(self.output, " env"),
            Pid::Instance { set, serial } => {
                let set = &self.system.sets[set as usize].name;
                writeln!(self.output, " {set}:{serial}")
            }
        }
    }
}
