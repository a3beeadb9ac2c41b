//! The environment of a plain program: it reads lines, and writes what it receives. It keeps what it sent and received, as a run
//! of this project does.
use crate::block::Block;
use crate::log::{Kind, Text};
use crate::systems::{Entry, Place, System, system};
use crate::values::{Item, Pid, Signal};
use std::hint::black_box;
use std::io::{
    BufRead, BufWriter, Error, Lines, Result, StdinLock, StdoutLock, Write, stdin, stdout,
};

pub struct Environment<'a> {
    system: &'a System,
    lines: Lines<StdinLock<'static>>,
    output: BufWriter<StdoutLock<'static>>,
    sent: Vec<Item>,
    received: Vec<Item>,
}

impl Environment<'_> {
    pub fn new(system: &System) -> Environment<'_> {
        Environment {
            system,
            lines: stdin().lock().lines(),
            output: BufWriter::new(stdout().lock()),
            sent: Vec::new(),
            received: Vec::new(),
        }
    }

    /// Reads a line, and answers its item and where that goes first. None at the end of the input.
    pub fn read(&mut self) -> Result<Option<(Place, Item)>> {
        let Some(line) = self.lines.next() else {
            return Ok(None);
        };
        let read = self.item_of(&line?);
        let Some((place, item)) = read else {
            return Err(Error::other("a line is no signal of the system"));
        };
        self.sent.push(item);
        Ok(Some((place, item)))
    }

    fn item_of(&self, line: &str) -> Option<(Place, Item)> {
        let mut fields = line.split(' ');
        let gate = fields.next()?;
        let signal = fields.next()?;
        let number = fields.next()?.parse().ok()?;
        let fits = |entry: &&Entry| {
            entry.gate == gate && self.system.signals[entry.signal as usize] == signal
        };
        let entry = self.system.entries.iter().find(fits)?;
        let item = Item {
            worker: self.system.blocks.len() as u32,
            number: self.sent.len() as u64,
            stamp: 0,
            signal: Signal::with(entry.signal, number),
            sender: Pid::Env,
            to: None,
            route: entry.route,
        };
        Some((entry.first, item))
    }

    /// Receives an item, and writes its line.
    pub fn receive(&mut self, item: Item) -> Result<()> {
        let signal = &self.system.signals[item.signal.id as usize];
        writeln!(
            self.output,
            "{} {signal} {}",
            self.system.exit,
            item.signal.number()
        )?;
        self.received.push(item);
        Ok(())
    }

    /// Writes the logs, where that is asked for, and what the run came to on standard error.
    pub fn end(mut self, blocks: &[Block], with_trace: bool) -> Result<()> {
        if with_trace {
            self.write_trace(blocks)?;
        }
        self.output.flush()?;
        // so that nothing that was kept is left out by the compiler
        black_box((blocks, &self.sent, &self.received));
        let events: usize = blocks.iter().map(|block| block.log.len()).sum();
        let sent = self.sent.len();
        let received = self.received.len();
        eprintln!("{sent} lines, {events} events, {received} received");
        Ok(())
    }

    fn write_trace(&mut self, blocks: &[Block]) -> Result<()> {
        for (block, name) in blocks.iter().zip(&self.system.blocks) {
            block.log.write(&mut Text {
                output: &mut self.output,
                system: self.system,
                block: name,
            })?;
        }
        Ok(())
    }
}

/// What a plain program is asked for: `SYSTEM short|packed|whole [--trace] [--budget TURNS]`.
pub struct Asked {
    pub system: System,
    pub kind: Kind,
    pub with_trace: bool,
    /// How many turns each block may make.
    pub budget: u32,
}

/// Reads the words after the program's name.
pub fn asked() -> Option<Asked> {
    let words: Vec<String> = std::env::args().skip(1).collect();
    let budget = match words.iter().position(|word| word == "--budget") {
        Some(place) => words.get(place + 1)?.parse().ok()?,
        None => 100_000,
    };
    Some(Asked {
        system: system(words.first()?)?,
        kind: match words.get(1)?.as_str() {
            "short" => Kind::Short,
            "packed" => Kind::Packed,
            "whole" => Kind::Whole,
            _ => return None,
        },
        with_trace: words.iter().any(|word| word == "--trace"),
        budget,
    })
}
