//! Times a session program beside the Rust's on a robot's long day.
//!
//!     bench_sessions PROGRAM [LINES [ROUNDS]]
//!
//! A round runs both, each as a process of its own that reads a file and writes to /dev/null, and a
//! figure is the median over the rounds. Before that both are run once, and their answers compared.

use session::day;
use std::fs::File;
use std::io::{self, BufWriter};
use std::path::{Path, PathBuf};
use std::process::{Command, ExitCode, Stdio};
use std::time::{Duration, Instant};
use std::{env, fs};

const LINES: u64 = 1_000_000;
const ROUNDS: u64 = 15;

fn answers(program: &Path, session: &Path) -> io::Result<Vec<u8>> {
    let output = Command::new(program)
        .stdin(File::open(session)?)
        .stderr(Stdio::inherit())
        .output()?;
    Ok(output.stdout)
}

fn time(program: &Path, session: &Path) -> io::Result<Duration> {
    let input = File::open(session)?;
    let start = Instant::now();
    let status = Command::new(program)
        .stdin(input)
        .stdout(Stdio::null())
        .status()?;
    assert!(status.success(), "{}: {status}", program.display());
    Ok(start.elapsed())
}

fn median(mut times: Vec<Duration>) -> Duration {
    times.sort();
    times[times.len() / 2]
}

fn main() -> io::Result<ExitCode> {
    let mut arguments = env::args_os().skip(1);
    let Some(program) = arguments.next().map(PathBuf::from) else {
        eprintln!("bench_sessions PROGRAM [LINES [ROUNDS]]");
        return Ok(ExitCode::from(2));
    };
    let mut number = |default| {
        let text = arguments.next().and_then(|text| text.into_string().ok());
        text.map_or(default, |text| text.parse().expect("a number"))
    };
    let (lines, rounds) = (number(LINES), number(ROUNDS));

    let rust = env::current_exe()?.with_file_name("session");
    let session = env::temp_dir().join(format!("day-{}.session", std::process::id()));
    day::write(BufWriter::new(File::create(&session)?), lines)?;
    let contestants = [program, rust];
    assert!(
        answers(&contestants[0], &session)? == answers(&contestants[1], &session)?,
        "the answers differ"
    );
    let mut times = [Vec::new(), Vec::new()];
    for _ in 0..rounds {
        for (contestant, times) in contestants.iter().zip(&mut times) {
            times.push(time(contestant, &session)?);
        }
    }
    fs::remove_file(&session)?;

    let nanos = times.map(|times| median(times).as_nanos() as f64 / lines as f64);
    println!("| lines | proved, a line | Rust, a line | ratio |");
    println!("|---:|---:|---:|---:|");
    let [proved, rust] = nanos;
    println!(
        "| {lines} | {proved:.0} ns | {rust:.0} ns | {:.2} |",
        proved / rust
    );
    Ok(ExitCode::SUCCESS)
}
