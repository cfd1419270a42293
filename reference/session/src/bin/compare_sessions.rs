//! Random sessions run through a session program and through the Rust, compared byte for byte.
//!
//!     compare_sessions PROGRAM [SESSIONS [FIRST]]
//!
//! Sessions are numbered, and the same for the same number. The first that differs is shrunk and
//! printed, and the status is 1 then.

use samples::splitmix64::SplitMix64;
use session::damage::pick;
use session::kinds::{self, Kind, Size};
use session::program::{Run, run};
use session::session::answers;
use std::io;
use std::path::{Path, PathBuf};
use std::process::ExitCode;
use std::sync::Mutex;
use std::sync::atomic::{AtomicU64, Ordering};
use std::{env, fs, thread};

const SESSIONS: u64 = 5000;

const SMALL: Size = Size {
    capacity: 5,
    lines: 22,
    long_lines: &[122, 199, 200, 201, 202, 256, 600],
};

const MIDDLING: Size = Size {
    capacity: 20,
    lines: 150,
    ..SMALL
};

const LARGE: Size = Size {
    capacity: 128,
    lines: 1000,
    ..SMALL
};

/// An input of more than one block.
const LONG: Size = Size {
    lines: 8000,
    ..LARGE
};

/// Lines that end around the end of a page and of a block.
const LONG_LINES: Size = Size {
    long_lines: &[4095, 4096, 4097, 65_535, 65_536, 65_537],
    ..SMALL
};

struct Trial {
    kind: Kind,
    number: u64,
    input: Vec<u8>,
    piece: Option<usize>,
}

impl Trial {
    fn new(number: u64) -> Self {
        let kind = Kind::ALL[(number % Kind::ALL.len() as u64) as usize];
        let mut random = SplitMix64(!number);
        let size = match random.below(100) {
            0 => LONG,
            1..3 => LONG_LINES,
            3..9 => LARGE,
            9..30 => MIDDLING,
            _ => SMALL,
        };
        let input = kinds::session(kind, number, size);
        // At most a few hundred pieces, since each takes a switch to the program and back.
        let length = pick(&mut random, &[1, 2, 3, 7, 16, 61, 199, 200, 201, 4099]);
        let piece = (random.below(4) == 0).then(|| length.max(input.len() / 400));
        Self {
            kind,
            number,
            input,
            piece,
        }
    }

    fn run(&self, program: &Path) -> io::Result<Run> {
        run(program, &self.input, self.piece)
    }

    fn agrees(&self, program: &Path) -> io::Result<bool> {
        Ok(self.run(program)?.agrees(&self.input))
    }

    /// Leaves out lines for as long as the rest differs.
    fn shrink(self, program: &Path) -> io::Result<Self> {
        let mut least = self;
        let mut count = least.lines().len();
        loop {
            let before = least.input.len();
            count = count.div_ceil(2).max(1);
            let mut at = 0;
            while at < least.lines().len() {
                let fewer = least.without(at, count);
                if fewer.agrees(program)? {
                    at += count;
                } else {
                    least = fewer;
                }
            }
            if count == 1 && least.input.len() == before {
                return Ok(least);
            }
        }
    }

    fn lines(&self) -> Vec<&[u8]> {
        self.input.split_inclusive(|&byte| byte == b'\n').collect()
    }

    fn without(&self, at: usize, count: usize) -> Self {
        let lines = self.lines();
        let end = lines.len().min(at + count);
        Self {
            input: [&lines[..at], &lines[end..]].concat().concat(),
            ..*self
        }
    }

    fn print(&self, program: &Path) -> io::Result<()> {
        let run = self.run(program)?;
        println!("{} {} differs. Shrunk:", self.kind.name(), self.number);
        print_lines(&self.input);
        if let Some(length) = self.piece {
            println!("fed in pieces of {length} bytes");
        }
        println!("answers of the Rust:");
        print_lines(&answers(&self.input));
        println!("answers of {}, {}:", program.display(), run.status);
        print_lines(&run.answers);
        let path = Path::new(env!("CARGO_MANIFEST_DIR")).join("../target/differs.session");
        fs::write(&path, &self.input)?;
        println!("The input is in {}.", path.display());
        Ok(())
    }
}

fn print_lines(bytes: &[u8]) {
    for line in bytes.split_inclusive(|&byte| byte == b'\n') {
        println!("    {}", line.escape_ascii());
    }
}

/// The first session that differs, as far as one is found.
fn compare(program: &Path, numbers: std::ops::Range<u64>) -> io::Result<Option<Trial>> {
    let next = AtomicU64::new(numbers.start);
    let found = Mutex::new(Ok(None));
    let work = || {
        loop {
            let number = next.fetch_add(1, Ordering::Relaxed);
            if numbers.end <= number {
                return;
            }
            let trial = Trial::new(number);
            match trial.agrees(program) {
                Ok(true) => continue,
                Ok(false) => *found.lock().expect("no panic") = Ok(Some(trial)),
                Err(error) => *found.lock().expect("no panic") = Err(error),
            }
            next.store(numbers.end, Ordering::Relaxed);
        }
    };
    thread::scope(|scope| {
        for _ in 0..thread::available_parallelism().map_or(1, |n| n.get()) {
            scope.spawn(work);
        }
    });
    found.into_inner().expect("no panic")
}

fn main() -> io::Result<ExitCode> {
    let mut arguments = env::args_os().skip(1);
    let Some(program) = arguments.next().map(PathBuf::from) else {
        eprintln!("compare_sessions PROGRAM [SESSIONS [FIRST]]");
        return Ok(ExitCode::from(2));
    };
    let mut number = |default| {
        let text = arguments.next().and_then(|text| text.into_string().ok());
        text.map_or(default, |text| text.parse().expect("a number"))
    };
    let (sessions, first) = (number(SESSIONS), number(0));
    match compare(&program, first..first + sessions)? {
        None => {
            println!("{sessions} random sessions agree.");
            Ok(ExitCode::SUCCESS)
        }
        Some(trial) => {
            trial.shrink(&program)?.print(&program)?;
            Ok(ExitCode::FAILURE)
        }
    }
}
