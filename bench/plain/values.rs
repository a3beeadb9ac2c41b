//! Values, signals, items and steps of the plain programs. They have the fields of this project's own, so that both move the same
//! number of bytes. What nobody reads is there to be moved.
#![allow(dead_code)]

use std::mem::MaybeUninit;

/// A list of at most `N` elements that stands where it is, as an `ArrayVec` does. The rest of its places are never read.
#[derive(Clone, Copy)]
pub struct ShortList<T: Copy, const N: usize> {
    len: u32,
    places: [MaybeUninit<T>; N],
}

impl<T: Copy, const N: usize> ShortList<T, N> {
    pub fn new() -> Self {
        ShortList {
            len: 0,
            places: [const { MaybeUninit::uninit() }; N],
        }
    }

    /// The list of this one element.
    pub fn of(element: T) -> Self {
        let mut list = Self::new();
        list.push(element);
        list
    }

    pub fn push(&mut self, element: T) {
        self.places[self.len as usize] = MaybeUninit::new(element);
        self.len += 1;
    }

    pub fn as_slice(&self) -> &[T] {
        // SAFETY: the first `len` places were written by `push`, and a place has the layout of its element.
        unsafe { std::slice::from_raw_parts(self.places.as_ptr().cast::<T>(), self.len as usize) }
    }
}

/// Who an instance is.
#[derive(Clone, Copy, PartialEq)]
pub enum Pid {
    Null,
    Env,
    Instance { set: u32, serial: u32 },
}

/// The systems that are compared only send integers.
#[derive(Clone, Copy)]
pub enum Value {
    Integer(i64),
    Boolean(bool),
    Pid(Pid),
}

#[derive(Clone, Copy)]
pub struct Signal {
    pub id: u32,
    pub parameters: ShortList<Value, 4>,
}

impl Signal {
    /// A signal with an integer.
    pub fn with(id: u32, number: i64) -> Signal {
        Signal {
            id,
            parameters: ShortList::of(Value::Integer(number)),
        }
    }

    /// Its integer.
    pub fn number(&self) -> i64 {
        match self.parameters.as_slice() {
            [Value::Integer(number)] => *number,
            _ => 0,
        }
    }
}

/// A signal on its way.
#[derive(Clone, Copy)]
pub struct Item {
    pub worker: u32,
    pub number: u64,
    pub stamp: u64,
    pub signal: Signal,
    pub sender: Pid,
    pub to: Option<Pid>,
    pub route: u32,
}

/// What a transition is shown.
#[derive(Clone, Copy)]
pub struct Frame {
    pub own: Pid,
    pub parent: Pid,
    pub offspring: Pid,
    pub sender: Pid,
    pub state: Option<u32>,
    pub variables: ShortList<Value, 8>,
    pub signal: Option<Signal>,
}

/// To whom an output goes.
#[derive(Clone, Copy)]
pub enum Destination {
    Anywhere,
    Own,
    Parent,
    Offspring,
    Sender,
    Pid(Pid),
    Set(u32),
}

#[derive(Clone, Copy)]
pub enum Via {
    Any,
    Gate(u32),
    Channel(u32),
}

#[derive(Clone, Copy)]
pub enum Action {
    Output {
        signal: Signal,
        destination: Destination,
        via: Via,
    },
    Create(u32),
}

#[derive(Clone, Copy)]
pub enum Next {
    State(u32),
    Stop,
}

/// What a transition answers.
#[derive(Clone, Copy)]
pub struct Step {
    pub actions: ShortList<Action, 8>,
    pub variables: ShortList<Value, 8>,
    pub next: Next,
}

/// What an action did.
#[derive(Clone, Copy)]
pub enum Done {
    Sent(Item),
    NoRoute(u32, u64, u32),
    Made(Pid),
}
