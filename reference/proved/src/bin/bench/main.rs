//! Times the proved layers beside the Rust that they are ports of, counts the instructions of the
//! book's calls and the bytes of a book. Prints tables, and draws the cost of a call against the
//! size into docs/benchmarks.svg and docs/book.svg.
//!
//! Arguments choose some of the [`PARTS`]; without any it does all of them.

mod counts;
mod expiration_index;
mod expiring;
mod fast_lru;
mod lazy_heap;
mod linked_hash_map;
mod plot;
mod table;
mod timing;

use samples::splitmix64::SplitMix64;
use std::path::Path;
use std::process::{Command, ExitCode};
use std::{env, fs, io};
use table::Panel;
use timing::SEED;

const PARTS: [&str; 7] = [
    "map",
    "list",
    "heap",
    "index",
    "book",
    "instructions",
    "memory",
];

fn main() -> io::Result<ExitCode> {
    let chosen: Vec<String> = env::args().skip(1).collect();
    if chosen == [counts::ARGUMENT] {
        counts::run_rows();
        return Ok(ExitCode::SUCCESS);
    }
    if let Some(other) = chosen.iter().find(|part| !PARTS.contains(&part.as_str())) {
        eprintln!("there is no {other}, only {}", PARTS.join(", "));
        return Ok(ExitCode::FAILURE);
    }
    let does = |part: &str| chosen.is_empty() || chosen.iter().any(|chosen| chosen == part);

    if does("map") {
        println!("## The map\n");
        linked_hash_map::print(&mut SplitMix64(SEED));
    }
    structures(does)?;
    if does("book") {
        book()?;
    }
    if does("instructions") {
        instructions()?;
    }
    if does("memory") {
        memory()?;
    }
    Ok(ExitCode::SUCCESS)
}

/// What the book is made of. They share a plot, which is drawn when all of them are timed.
fn structures(does: impl Fn(&str) -> bool) -> io::Result<()> {
    let mut panels = Vec::new();
    let mut add = |heading: &str, names: [&str; 2], sizes: &[usize], measured: Vec<Panel>| {
        println!("## {heading}\n");
        table::print(&names, sizes, &measured, table::nanos);
        panels.extend(measured);
    };
    if does("list") {
        let measured = fast_lru::measure(&mut SplitMix64(SEED));
        let names = ["proved list", "FastLru"];
        add("The recency list", names, &[16, 256, 4096], measured);
    }
    if does("heap") {
        let measured = lazy_heap::measure(&mut SplitMix64(SEED));
        let names = ["proved heap", "LazyMinHeap"];
        add("The heap", names, &[256, 4096], measured);
    }
    if does("index") {
        let measured = expiration_index::measure(&mut SplitMix64(SEED));
        let names = ["proved index", "ExpirationIndex"];
        add("The index of deadlines", names, &[256, 4096], measured);
    }
    if ["list", "heap", "index"].into_iter().all(does) {
        draw("benchmarks.svg", &["proved", "the Rust"], &panels)?;
    }
    Ok(())
}

fn book() -> io::Result<()> {
    let sizes: Vec<usize> = timing::sizes().collect();
    let panels = expiring::measure(&sizes, &mut timing::medians);
    println!("## The book\n");
    table::print(&expiring::NAMES, &[16, 256, 4096], &panels, table::nanos);
    draw("book.svg", &expiring::NAMES, &panels)
}

fn instructions() -> io::Result<()> {
    println!("## Instructions\n");
    match counts::measure()? {
        Some(panels) => {
            let show = table::instructions;
            table::print(&expiring::NAMES, &counts::SIZES, &panels, show);
        }
        None => println!("Not counted: valgrind, Debian's package of that name, is missing.\n"),
    }
    Ok(())
}

/// A program of its own prints it, because an allocator that counts would slow the Rust down here.
fn memory() -> io::Result<()> {
    println!("## Memory\n");
    let run = Command::new(env!("CARGO"))
        .args(["run", "--release", "--quiet", "--bin", "memory"])
        .current_dir(env!("CARGO_MANIFEST_DIR"))
        .status()?;
    assert!(run.success(), "memory: {run}");
    Ok(())
}

fn draw(name: &str, names: &[&str], panels: &[Panel]) -> io::Result<()> {
    let docs = Path::new(env!("CARGO_MANIFEST_DIR")).join("../../docs");
    fs::write(docs.join(name), plot::svg(names, panels))?;
    println!("docs/{name} is drawn anew.\n");
    Ok(())
}
