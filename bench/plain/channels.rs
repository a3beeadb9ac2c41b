//! A system over the channels of `std::sync::mpsc`, with a thread for each block and for each delaying path, and the environment
//! on the caller's. It is compared with `sdl_app run`, whose threads are the same.
mod block;
mod environment;
mod log;
mod systems;
mod values;

use block::Block;
use environment::{Asked, Environment, asked};
use std::io::Result;
use std::process::ExitCode;
use std::sync::mpsc::{Receiver, Sender, channel};
use std::thread::{self, JoinHandle};
use systems::{Place, System};
use values::Item;

/// The sending ends of all places.
struct Senders {
    paths: Vec<Sender<Item>>,
    inlets: Vec<Sender<Item>>,
    outlet: Sender<Item>,
}

/// The receiving ends of all places.
struct Receivers {
    paths: Vec<Receiver<Item>>,
    inlets: Vec<Receiver<Item>>,
    outlet: Receiver<Item>,
}

fn open(system: &System) -> (Senders, Receivers) {
    let (paths, path_ends) = system.paths.iter().map(|_| channel()).unzip();
    let (inlets, inlet_ends) = system.blocks.iter().map(|_| channel()).unzip();
    let (outlet, outlet_end) = channel();
    let senders = Senders {
        paths,
        inlets,
        outlet,
    };
    let receivers = Receivers {
        paths: path_ends,
        inlets: inlet_ends,
        outlet: outlet_end,
    };
    (senders, receivers)
}

impl Senders {
    fn to(&self, place: Place) -> Sender<Item> {
        match place {
            Place::Path(path) => self.paths[path].clone(),
            Place::Inlet(block) => self.inlets[block].clone(),
            Place::Outlet => self.outlet.clone(),
        }
    }
}

/// A path hands on what comes, until nobody can send any more or nobody takes.
fn forward(from: Receiver<Item>, to: Sender<Item>) {
    while let Ok(item) = from.recv() {
        if to.send(item).is_err() {
            break;
        }
    }
}

/// Where a block sends: the places where its sets' outputs go first.
struct Ways {
    places: Vec<Option<Sender<Item>>>,
}

impl Ways {
    fn of_block(system: &System, senders: &Senders, block: usize) -> Ways {
        let mut places = vec![None; system.paths.len()];
        for set in system.sets.iter().filter(|set| set.block == block) {
            if let Place::Path(path) = set.first {
                places[path] = Some(senders.to(set.first));
            }
        }
        Ways { places }
    }

    fn of_environment(system: &System, senders: &Senders) -> Ways {
        let mut places = vec![None; system.paths.len()];
        for entry in &system.entries {
            if let Place::Path(path) = entry.first {
                places[path] = Some(senders.to(entry.first));
            }
        }
        Ways { places }
    }

    /// False where nobody takes there any more.
    fn put(&self, place: Place, item: Item) -> bool {
        match place {
            Place::Path(path) => match &self.places[path] {
                Some(sender) => sender.send(item).is_ok(),
                None => false,
            },
            Place::Inlet(_) | Place::Outlet => false,
        }
    }
}

/// A block makes a turn, and puts out what that sent. False where it made none, or nobody takes there any more.
fn turn(block: &mut Block, ways: &Ways) -> bool {
    if !block.may_turn() || !block.turn() {
        return false;
    }
    while let Some((place, item)) = block.sent.pop_front() {
        if !ways.put(place, item) {
            return false;
        }
    }
    true
}

/// A block makes its starts, and then a turn for each item that comes.
fn work(mut block: Block, from: Receiver<Item>, ways: Ways) -> Block {
    while turn(&mut block, &ways) {}
    while block.may_turn() {
        let Ok(item) = from.recv() else {
            break;
        };
        block.arrive(item);
        if !turn(&mut block, &ways) {
            break;
        }
    }
    block
}

/// Starts all threads, and answers those of the blocks. The environment's ends stay.
fn start(
    asked: &Asked,
    senders: &Senders,
    paths: Vec<Receiver<Item>>,
    inlets: Vec<Receiver<Item>>,
) -> Vec<JoinHandle<Block>> {
    let system = &asked.system;
    for (from, next) in paths.into_iter().zip(&system.paths) {
        let to = senders.to(*next);
        thread::spawn(move || forward(from, to));
    }
    let start_block = |(number, from)| {
        let block = Block::new(system, number, asked.kind, asked.budget);
        let ways = Ways::of_block(system, senders, number);
        thread::spawn(move || work(block, from, ways))
    };
    inlets.into_iter().enumerate().map(start_block).collect()
}

/// Reads all lines, and takes meanwhile what is there. Then it takes what still comes.
fn converse(environment: &mut Environment, ways: Ways, outlet: Receiver<Item>) -> Result<()> {
    while let Some((place, item)) = environment.read()? {
        ways.put(place, item);
        if let Ok(item) = outlet.try_recv() {
            environment.receive(item)?;
        }
    }
    drop(ways);
    while let Ok(item) = outlet.recv() {
        environment.receive(item)?;
    }
    Ok(())
}

fn run(asked: &Asked) -> Result<()> {
    let system = &asked.system;
    let (senders, receivers) = open(system);
    let ways = Ways::of_environment(system, &senders);
    let threads = start(asked, &senders, receivers.paths, receivers.inlets);
    drop(senders);
    let mut environment = Environment::new(system);
    converse(&mut environment, ways, receivers.outlet)?;
    let blocks: Vec<Block> = threads
        .into_iter()
        .filter_map(|thread| thread.join().ok())
        .collect();
    environment.end(&blocks, asked.with_trace)
}

fn main() -> ExitCode {
    let Some(asked) = asked() else {
        eprintln!("usage: channels SYSTEM short|packed|whole [--trace] [--budget TURNS]");
        return ExitCode::from(2);
    };
    match run(&asked) {
        Ok(()) => ExitCode::SUCCESS,
        Err(fault) => {
            eprintln!("{fault}");
            ExitCode::from(3)
        }
    }
}
