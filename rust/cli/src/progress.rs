//! A progress bar on standard error, shown only where that is a terminal.

use std::io::{IsTerminal, Write};
use std::sync::atomic::{AtomicU64, Ordering};
use std::sync::Mutex;
use std::time::{Duration, Instant};

/// The bar is drawn anew at most so often.
const PAUSE: Duration = Duration::from_millis(100);
/// The columns of a full bar.
const COLUMNS: u64 = 40;

/// How much of a run is done. Threads may share it.
pub struct Progress {
    name: &'static str,
    total: u64,
    done: AtomicU64,
    is_shown: bool,
    last_drawn: Mutex<Instant>,
}

impl Progress {
    /// A run of so many steps.
    pub fn new(name: &'static str, total: u64) -> Progress {
        let is_shown = std::io::stderr().is_terminal();
        Progress { name, total, done: AtomicU64::new(0), is_shown, last_drawn: Mutex::new(Instant::now()) }
    }

    /// One more step is done.
    pub fn step(&self) {
        let done = self.done.fetch_add(1, Ordering::Relaxed) + 1;
        if !self.is_shown {
            return;
        }
        // Where another thread draws, this one need not.
        if let Ok(mut last) = self.last_drawn.try_lock() {
            if last.elapsed() >= PAUSE {
                *last = Instant::now();
                draw(&bar(self.name, done, self.total));
            }
        }
    }

    /// Takes the bar away.
    pub fn finish(&self) {
        if self.is_shown {
            draw("");
        }
    }
}

/// Puts a line in the place of the one before.
fn draw(line: &str) {
    let mut to = std::io::stderr();
    let _ = write!(to, "\r\x1B[K{line}").and_then(|()| to.flush());
}

fn bar(name: &str, done: u64, total: u64) -> String {
    let filled = (COLUMNS * done.min(total)).checked_div(total).unwrap_or(COLUMNS);
    let (full, rest) = ("#".repeat(filled as usize), "-".repeat((COLUMNS - filled) as usize));
    format!("{name} [{full}{rest}] {done} of {total}")
}

#[cfg(test)]
mod tests {
    use super::*;

    #[test]
    fn bars_are_as_full_as_the_run() {
        assert_eq!(bar("corpus", 0, 4), format!("corpus [{}] 0 of 4", "-".repeat(40)));
        assert_eq!(bar("corpus", 1, 4), format!("corpus [{}{}] 1 of 4", "#".repeat(10), "-".repeat(30)));
        assert_eq!(bar("corpus", 4, 4), format!("corpus [{}] 4 of 4", "#".repeat(40)));
        assert_eq!(bar("corpus", 0, 0), format!("corpus [{}] 0 of 0", "#".repeat(40)));
    }
}
