//! The instructions of the book's calls, counted by valgrind's callgrind: nothing else that the
//! machine does moves them.
//!
//! Callgrind runs this program again with [`ARGUMENT`], which is to run every row once. It counts
//! inside [`run_lists`] alone, so that filling a book does not count, and writes a total at the end
//! of every [`round`].

use crate::expiring;
use crate::table::Panel;
use crate::timing::{CALLS_IN_LIST, Contestant, Workload, run_lists};
use std::process::{self, Command};
use std::{env, fs, io};

pub const ARGUMENT: &str = "counted";
pub const SIZES: [usize; 2] = [256, 4096];

/// What callgrind runs.
pub fn run_rows() {
    expiring::measure(&SIZES, &mut |contestants, work| {
        for contestant in contestants {
            round(*contestant, work);
        }
        Vec::new()
    });
}

#[inline(never)]
fn round(contestant: &mut dyn Contestant<6>, work: &Workload<6>) {
    let mut answers = Vec::with_capacity(CALLS_IN_LIST);
    contestant.run(&work.before, &mut answers);
    run_lists(contestant, work, &mut answers);
}

/// None where there is no valgrind.
pub fn measure() -> io::Result<Option<Vec<Panel>>> {
    let Some(totals) = totals()? else {
        return Ok(None);
    };
    let mut totals = totals.into_iter();
    let panels = expiring::measure(&SIZES, &mut |contestants, work| {
        let of_round = |total: f64| total / work.calls() as f64;
        let totals = totals.by_ref().take(contestants.len());
        totals.map(of_round).collect()
    });
    Ok(Some(panels))
}

/// In the order of the rounds.
fn totals() -> io::Result<Option<Vec<f64>>> {
    let path = env::temp_dir().join(format!("instructions-{}", process::id()));
    let run = Command::new("valgrind")
        .args(["--tool=callgrind", "--combine-dumps=yes"])
        .arg("--toggle-collect=bench::timing::run_lists*")
        .arg("--dump-after=bench::counts::round*")
        .arg(format!("--callgrind-out-file={}", path.display()))
        .arg(env::current_exe()?)
        .arg(ARGUMENT)
        .output();
    let run = match run {
        Err(error) if error.kind() == io::ErrorKind::NotFound => return Ok(None),
        run => run?,
    };
    let said = String::from_utf8_lossy(&run.stderr);
    assert!(run.status.success(), "valgrind: {}\n{said}", run.status);
    let parts = fs::read_to_string(&path)?;
    fs::remove_file(&path)?;
    let totals = parts
        .lines()
        .filter_map(|line| line.strip_prefix("totals: "));
    Ok(Some(
        totals
            .map(|total| total.parse().expect("a number of instructions"))
            .collect(),
    ))
}
