//! The systems that are compared, as a plain program knows them: where each path leads, and what each set does. Signals, routes,
//! sets and paths have the numbers of the structure files.

/// A place where items wait.
#[derive(Clone, Copy)]
pub enum Place {
    /// A delaying path of a channel, by its number in the order of the channels, forth before back.
    Path(usize),
    /// The inlet of a block.
    Inlet(usize),
    /// Where the environment takes what it receives.
    Outlet,
}

/// What the transitions of a set do.
#[derive(Clone, Copy)]
pub enum Does {
    /// On each signal it outputs another with the same number.
    Forward,
    /// On each signal it outputs the next number.
    Count,
    /// The same, and its start outputs the number 0.
    CountFromStart,
}

/// A process set of one instance, whose outputs all take one route.
pub struct Set {
    pub name: String,
    pub block: usize,
    pub does: Does,
    /// The signal that it outputs, its route, and the first place of that.
    pub signal: u32,
    pub route: u32,
    pub first: Place,
}

/// A gate at which lines come in, with the signal and the route of its lines, and the first place of that.
pub struct Entry {
    pub gate: String,
    pub signal: u32,
    pub route: u32,
    pub first: Place,
}

pub struct System {
    pub signals: Vec<String>,
    pub blocks: Vec<String>,
    pub sets: Vec<Set>,
    pub entries: Vec<Entry>,
    /// The gate at which the environment receives.
    pub exit: String,
    /// Where each path leads.
    pub paths: Vec<Place>,
    /// The set at the end of each route. That of a route to the environment is not asked for.
    pub receivers: Vec<usize>,
}

/// The system of this name.
pub fn system(name: &str) -> Option<System> {
    match name {
        "echo" => Some(echo()),
        "relay" => Some(relay()),
        "ring" => Some(ring()),
        "chain" => Some(chain(true)),
        "chain-nodelay" => Some(chain(false)),
        _ => None,
    }
}

fn names(all: &[&str]) -> Vec<String> {
    all.iter().map(|name| name.to_string()).collect()
}

fn set(name: &str, block: usize, does: Does, signal: u32, route: u32, path: usize) -> Set {
    Set {
        name: name.to_string(),
        block,
        does,
        signal,
        route,
        first: Place::Path(path),
    }
}

fn entry(gate: &str, signal: u32, route: u32, path: usize) -> Entry {
    Entry {
        gate: gate.to_string(),
        signal,
        route,
        first: Place::Path(path),
    }
}

/// `examples/echo.toml`: paths c0 forth and back, c1 forth and back.
fn echo() -> System {
    System {
        signals: names(&["ping", "pong"]),
        blocks: names(&["B"]),
        sets: vec![set("E", 0, Does::Forward, 1, 1, 3)],
        entries: vec![entry("line", 0, 0, 0)],
        exit: "line".to_string(),
        paths: vec![
            Place::Path(2),
            Place::Outlet,
            Place::Inlet(0),
            Place::Path(1),
        ],
        receivers: vec![0, 0],
    }
}

/// `examples/relay.toml`: paths sa, sc, mid, so, la, lc, ag, cg, hb, bs.
fn relay() -> System {
    System {
        signals: names(&["put", "num", "out"]),
        blocks: names(&["L", "R"]),
        sets: vec![
            set("A", 0, Does::Forward, 1, 2, 6),
            set("C", 0, Does::Forward, 1, 3, 7),
            set("B", 1, Does::Forward, 2, 4, 9),
        ],
        entries: vec![entry("left", 0, 0, 0), entry("right", 0, 1, 1)],
        exit: "sink".to_string(),
        paths: vec![
            Place::Path(4),
            Place::Path(5),
            Place::Path(8),
            Place::Outlet,
            Place::Inlet(0),
            Place::Inlet(0),
            Place::Path(2),
            Place::Path(2),
            Place::Inlet(1),
            Place::Path(3),
        ],
        receivers: vec![0, 1, 2, 2, 0],
    }
}

/// `examples/ring.toml`: paths r forth and back, p forth and back, q forth and back.
fn ring() -> System {
    System {
        signals: names(&["tok"]),
        blocks: names(&["P", "Q"]),
        sets: vec![
            set("X", 0, Does::CountFromStart, 0, 0, 3),
            set("Y", 1, Does::Count, 0, 1, 5),
        ],
        entries: Vec::new(),
        exit: String::new(),
        paths: vec![
            Place::Path(4),
            Place::Path(2),
            Place::Inlet(0),
            Place::Path(0),
            Place::Inlet(1),
            Place::Path(1),
        ],
        receivers: vec![1, 0],
    }
}

/// `examples/chain.toml`: 16 blocks in a row, each of which sends on what it is sent. Paths c0 to c16, and then i0, o0, i1 and so
/// on. Those in the blocks are left out where they hold nothing back.
fn chain(inner_paths: bool) -> System {
    const BLOCKS: usize = 16;
    let into = |number: usize| {
        if inner_paths {
            Place::Path(BLOCKS + 1 + 2 * number)
        } else {
            Place::Inlet(number)
        }
    };
    let forward = |number: usize| {
        let out_of = if inner_paths {
            BLOCKS + 2 + 2 * number
        } else {
            number + 1
        };
        let name = format!("S{number}");
        set(&name, number, Does::Forward, 0, number as u32 + 1, out_of)
    };
    let mut paths: Vec<Place> = (0..BLOCKS).map(into).collect();
    paths.push(Place::Outlet);
    if inner_paths {
        paths
            .extend((0..BLOCKS).flat_map(|number| [Place::Inlet(number), Place::Path(number + 1)]));
    }
    System {
        signals: names(&["num"]),
        blocks: (0..BLOCKS).map(|number| format!("B{number}")).collect(),
        sets: (0..BLOCKS).map(forward).collect(),
        entries: vec![entry("in", 0, 0, 0)],
        exit: "out".to_string(),
        paths,
        receivers: (0..=BLOCKS).map(|number| number.min(BLOCKS - 1)).collect(),
    }
}
