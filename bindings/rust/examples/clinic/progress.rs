//! What the run says of itself: its steps with the time that each took, and how far a long one is.

use std::error::Error;
use std::fmt::{self, Display, Formatter};
use std::io::{self, IsTerminal, Write};
use std::sync::Mutex;
use std::time::{Duration, Instant};

/// The steps of a run, in order.
pub struct Steps {
    begun: Instant,
    made: usize,
}

/// A step that could not be made, and why.
#[derive(Debug)]
pub struct Failed {
    step: &'static str,
    cause: Box<dyn Error>,
}

impl Steps {
    /// No step made yet; the time of the whole run counts from here.
    pub fn new() -> Steps {
        Steps {
            begun: Instant::now(),
            made: 0,
        }
    }

    /// Makes a step and hands on what it gives; prints its name before it, and after it what there is
    /// to tell of the result and how long it took.
    pub fn run<T, E: Into<Box<dyn Error>>>(
        &mut self,
        step: &'static str,
        work: impl FnOnce() -> Result<T, E>,
        told: impl FnOnce(&T) -> String,
    ) -> Result<T, Failed> {
        self.made += 1;
        println!("{}. {step}", self.made);
        let begun = Instant::now();
        let result = work().map_err(|cause| Failed {
            step,
            cause: cause.into(),
        })?;
        println!("   {} ({})", told(&result), seconds(begun.elapsed()));
        Ok(result)
    }

    /// How long the run has taken so far.
    pub fn elapsed(&self) -> Duration {
        self.begun.elapsed()
    }
}

impl Display for Failed {
    fn fmt(&self, f: &mut Formatter<'_>) -> fmt::Result {
        write!(f, "{}: {}", self.step, self.cause)
    }
}

impl Error for Failed {
    fn source(&self) -> Option<&(dyn Error + 'static)> {
        Some(self.cause.as_ref())
    }
}

/// How far a long step is: on a terminal one line that is written again and again, else a line for
/// each tenth. Any thread may tell.
pub struct Progress {
    what: &'static str,
    total: usize,
    begun: Instant,
    terminal: bool,
    shown: Mutex<Shown>,
}

/// What was last shown: how many were done, and when.
struct Shown {
    done: usize,
    at: Instant,
}

/// How long a line on a terminal stands at least.
const STANDS: Duration = Duration::from_millis(100);

impl Progress {
    /// Nothing done yet of so many; the time left is reckoned from here on.
    pub fn new(what: &'static str, total: usize) -> Progress {
        let begun = Instant::now();
        let terminal = io::stdout().is_terminal();
        let shown = Mutex::new(Shown { done: 0, at: begun });
        Progress {
            what,
            total,
            begun,
            terminal,
            shown,
        }
    }

    /// Takes note of how many are done, and shows it where it is time to.
    pub fn tell(&self, done: usize) {
        let Ok(mut shown) = self.shown.lock() else {
            return;
        };
        if done <= shown.done || !self.is_due(&shown, done) {
            return;
        }
        *shown = Shown {
            done,
            at: Instant::now(),
        };
        if self.terminal {
            print!("\r   {}\x1b[K", self.line(done));
            // A line of progress that can't be written is no reason to stop.
            let _ = io::stdout().flush();
        } else {
            println!("   {}", self.line(done));
        }
    }

    /// Wipes the line on a terminal, where the result will stand.
    pub fn end(&self) {
        if self.terminal {
            print!("\r\x1b[K");
        }
    }

    fn is_due(&self, shown: &Shown, done: usize) -> bool {
        let tenth = |done: usize| done * 10 / self.total.max(1);
        if self.terminal {
            shown.at.elapsed() >= STANDS
        } else {
            tenth(done) > tenth(shown.done)
        }
    }

    fn line(&self, done: usize) -> String {
        let percent = done * 100 / self.total.max(1);
        let left = self
            .begun
            .elapsed()
            .mul_f64((self.total.saturating_sub(done)) as f64 / done.max(1) as f64);
        let (done, total) = (grouped(done), grouped(self.total));
        format!(
            "{percent} %, {done} of {total} {}, {:.0} s left",
            self.what,
            left.as_secs_f64()
        )
    }
}

/// A time in seconds, with tenths.
pub fn seconds(time: Duration) -> String {
    format!("{:.1} s", time.as_secs_f64())
}

/// A number with its digits in groups of three: 20,000.
pub fn grouped(number: usize) -> String {
    let digits = number.to_string();
    let mut text = String::new();
    for (place, digit) in digits.chars().enumerate() {
        if place > 0 && (digits.len() - place) % 3 == 0 {
            text.push(',');
        }
        text.push(digit);
    }
    text
}
