//! Runs one program and prints what the run took: microseconds by the clock and of the processors, kilobytes of memory at its
//! peak, and its status. `measure INPUT OUTPUT ERRORS PROGRAM WORD ..`
//!
//! It is a program of its own since the kernel counts the memory of whoever starts a program as that program's own at first.
use std::ffi::c_int;
use std::fs::File;
use std::io::Result;
use std::process::{Command, ExitCode};
use std::time::Instant;

/// A time of the C library.
#[repr(C)]
#[derive(Default)]
struct Time {
    seconds: i64,
    microseconds: i64,
}

impl Time {
    fn micros(&self) -> i64 {
        self.seconds * 1_000_000 + self.microseconds
    }
}

/// `struct rusage` of the C library on a 64-bit Linux.
#[repr(C)]
#[derive(Default)]
struct Usage {
    user: Time,
    system: Time,
    peak_kilobytes: i64,
    others: [i64; 13],
}

unsafe extern "C" {
    fn wait4(process: c_int, status: *mut c_int, options: c_int, usage: *mut Usage) -> c_int;
}

fn run(words: &[String]) -> Result<bool> {
    let [input, output, errors, program, rest @ ..] = words else {
        return Ok(false);
    };
    let mut command = Command::new(program);
    command
        .args(rest)
        .stdin(File::open(input)?)
        .stdout(File::create(output)?)
        .stderr(File::create(errors)?);
    let start = Instant::now();
    let child = command.spawn()?;
    let mut usage = Usage::default();
    let mut status: c_int = 0;
    // SAFETY: both places are written by the call alone, and `Usage` has the fields of the C library's own.
    let ended = unsafe { wait4(child.id() as c_int, &mut status, 0, &mut usage) };
    let micros = start.elapsed().as_micros();
    let processor = usage.user.micros() + usage.system.micros();
    // the status of a program that ended by itself stands in the second byte, and a signal in the first
    let status = if status & 127 == 0 {
        status >> 8 & 255
    } else {
        128 + (status & 127)
    };
    println!("{micros} {processor} {} {status}", usage.peak_kilobytes);
    Ok(ended > 0)
}

fn main() -> ExitCode {
    let words: Vec<String> = std::env::args().skip(1).collect();
    match run(&words) {
        Ok(true) => ExitCode::SUCCESS,
        Ok(false) => ExitCode::from(2),
        Err(fault) => {
            eprintln!("measure: {fault}");
            ExitCode::from(3)
        }
    }
}
