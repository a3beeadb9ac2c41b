//! A system as a loop on one thread, with a queue for each place. It is compared with `sdl_app run --serial`: its workers take
//! turns in the same order, so that both write the same text.
mod block;
mod environment;
mod log;
mod systems;
mod values;

use block::Block;
use environment::{Asked, Environment, asked};
use std::collections::VecDeque;
use std::io::Result;
use std::process::ExitCode;
use systems::{Place, System};
use values::Item;

/// The queues of all places.
struct Queues {
    paths: Vec<VecDeque<Item>>,
    inlets: Vec<VecDeque<Item>>,
    outlet: VecDeque<Item>,
}

impl Queues {
    fn new(system: &System) -> Queues {
        Queues {
            paths: system.paths.iter().map(|_| VecDeque::new()).collect(),
            inlets: system.blocks.iter().map(|_| VecDeque::new()).collect(),
            outlet: VecDeque::new(),
        }
    }

    fn put(&mut self, place: Place, item: Item) {
        match place {
            Place::Path(path) => self.paths[path].push_back(item),
            Place::Inlet(block) => self.inlets[block].push_back(item),
            Place::Outlet => self.outlet.push_back(item),
        }
    }
}

/// A block takes an item, makes a turn, and puts out what that sent. False where it did nothing.
fn step_of_block(block: &mut Block, number: usize, queues: &mut Queues) -> bool {
    if !block.may_turn() {
        return false;
    }
    let arrived = queues.inlets[number].pop_front();
    let did = arrived.is_some();
    if let Some(item) = arrived {
        block.arrive(item);
    }
    let turned = block.turn();
    while let Some((place, item)) = block.sent.pop_front() {
        queues.put(place, item);
    }
    did || turned
}

/// The environment reads a line, and receives an item. False where it did neither.
fn step_of_environment(environment: &mut Environment, queues: &mut Queues) -> Result<bool> {
    let read = environment.read()?;
    let mut did = false;
    if let Some((place, item)) = read {
        queues.put(place, item);
        did = true;
    }
    if let Some(item) = queues.outlet.pop_front() {
        environment.receive(item)?;
        did = true;
    }
    Ok(did)
}

/// Each path hands one item on. False where none did.
fn steps_of_paths(system: &System, queues: &mut Queues) -> bool {
    let mut did = false;
    for (path, next) in system.paths.iter().enumerate() {
        if let Some(item) = queues.paths[path].pop_front() {
            queues.put(*next, item);
            did = true;
        }
    }
    did
}

fn run(asked: &Asked) -> Result<()> {
    let system = &asked.system;
    let mut queues = Queues::new(system);
    let mut blocks: Vec<Block> = (0..system.blocks.len())
        .map(|number| Block::new(system, number, asked.kind, asked.budget))
        .collect();
    let mut environment = Environment::new(system);
    let mut goes_on = true;
    while goes_on {
        goes_on = false;
        for (number, block) in blocks.iter_mut().enumerate() {
            goes_on |= step_of_block(block, number, &mut queues);
        }
        goes_on |= step_of_environment(&mut environment, &mut queues)?;
        goes_on |= steps_of_paths(system, &mut queues);
    }
    environment.end(&blocks, asked.with_trace)
}

fn main() -> ExitCode {
    let Some(asked) = asked() else {
        eprintln!("usage: one_thread SYSTEM short|packed|whole [--trace] [--budget TURNS]");
        return ExitCode::from(2);
    };
    match run(&asked) {
        Ok(()) => ExitCode::SUCCESS,
        Err(fault) => {
            eprintln!("{fault}");
            ExitCode::from(3)
        }
    }
}
