//! A plain IDE solver (Sagiv, Reps and Horwitz 1996): `plain once ANALYSIS FILE ROOT`.
//!
//! Text -> flat graph -> jump functions (tabulation) -> start values -> values and dump.
mod dump;
mod functions;
mod graph;
mod tabulate;

use functions::{Analysis, Constants, Reaching};
use std::fs::File;
use std::io;
use std::os::fd::AsFd;
use tabulate::{Cell, Tables};

/// Solves and writes the dump; false where the functions do not fit in the cells, and nothing was written.
fn solve<A: Analysis, C: Cell>(
    mut a: A,
    text: &[u8],
    root: &str,
    out: &mut File,
) -> io::Result<bool> {
    a.limit(C::MAX);
    let g = graph::read(text, &mut a);
    let Some(root) = g.procedure_named(root.as_bytes()) else {
        return Err(io::Error::other("E9 no procedure"));
    };
    if g.procs[root].params > 0 {
        return Err(io::Error::other("E10 has parameters"));
    }
    let mut t = Tables::<C>::new(&g);
    if !tabulate::tabulate(&g, &mut a, &mut t, root) {
        return Ok(false);
    }
    tabulate::start_values(&g, &mut a, &mut t, root);
    if a.is_full() {
        return Ok(false);
    }
    dump::write(&g, &mut a, &mut t, out)?;
    Ok(true)
}

fn run() -> io::Result<()> {
    let words: Vec<String> = std::env::args().skip(1).collect();
    let [once, analysis, file, root] = words.as_slice() else {
        return Err(io::Error::other(
            "usage: plain once uninit|copy|shift FILE ROOT",
        ));
    };
    if once != "once" {
        return Err(io::Error::other("only once"));
    }
    let text = std::fs::read(file)?;
    let mut out = File::from(io::stdout().as_fd().try_clone_to_owned()?);
    let sums = match analysis.as_str() {
        "uninit" => return solve::<_, u8>(Reaching, &text, root, &mut out).map(drop),
        "copy" => false,
        "shift" => true,
        _ => return Err(io::Error::other("no such analysis")),
    };
    // most programs have fewer than 2^16 functions, and cells of half the size then
    if !solve::<_, u16>(Constants::new(sums), &text, root, &mut out)? {
        solve::<_, u32>(Constants::new(sums), &text, root, &mut out)?;
    }
    Ok(())
}

fn main() {
    if let Err(e) = run() {
        eprintln!("{e}");
        std::process::exit(1);
    }
}
