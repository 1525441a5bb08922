//! Runs a command so many times, with its output written to nothing: `measure RUNS PROGRAM WORD..` prints the least processor
//! seconds of a run, and the most memory in MiB. A process that a small one starts is not charged with the memory of a large one.
use std::io;
use std::process::{Command, Stdio};

/// Seconds and microseconds, as the system tells them.
#[repr(C)]
#[derive(Default)]
struct Span {
    seconds: i64,
    micros: i64,
}

impl Span {
    fn seconds(&self) -> f64 {
        self.seconds as f64 + self.micros as f64 * 1e-6
    }
}

/// What a process used: the system's `struct rusage`.
#[repr(C)]
#[derive(Default)]
struct Usage {
    user: Span,
    system: Span,
    most_kib: i64,
    others: [i64; 13],
}

unsafe extern "C" {
    fn wait4(process: i32, status: *mut i32, options: i32, usage: *mut Usage) -> i32;
}

/// The seconds and the memory of one run.
fn run(program: &str, words: &[String]) -> io::Result<(f64, f64)> {
    let child = Command::new(program)
        .args(words)
        .stdout(Stdio::null())
        .spawn()?;
    let (mut status, mut usage) = (0, Usage::default());
    // The status and the usage are written to for the time of the call, and live longer.
    let ended = unsafe { wait4(child.id() as i32, &mut status, 0, &mut usage) };
    if ended < 0 || status != 0 {
        return Err(io::Error::other("the command failed"));
    }
    let seconds = usage.user.seconds() + usage.system.seconds();
    Ok((seconds, usage.most_kib as f64 / 1024.0))
}

fn main() -> io::Result<()> {
    let words: Vec<String> = std::env::args().skip(1).collect();
    let [runs, program, words @ ..] = words.as_slice() else {
        return Err(io::Error::other("usage: measure RUNS PROGRAM WORD.."));
    };
    let runs: usize = runs.parse().map_err(io::Error::other)?;
    let (mut seconds, mut memory) = (f64::MAX, 0.0_f64);
    for _ in 0..runs {
        let (took, most) = run(program, words)?;
        seconds = seconds.min(took);
        memory = memory.max(most);
    }
    println!("{seconds:.4} {memory:.1}");
    Ok(())
}
