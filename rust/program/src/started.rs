//! The program as the system starts it.

use crate::{found, path};
use std::io::{pipe, Read, Write};
use std::panic::resume_unwind;
use std::path::PathBuf;
use std::process::{Child, Command, ExitStatus, Stdio};
use std::sync::atomic::{AtomicBool, Ordering};
use std::sync::Mutex;
use std::thread;
use std::time::{Duration, Instant};

/// A program that takes this long for one input hangs.
const PATIENCE: Duration = Duration::from_secs(20);
/// Any pipe holds this many bytes.
const PIPE: usize = 4096;

/// Runs the program on one input after the other.
pub struct Runner {
    path: PathBuf,
    running: Mutex<Option<(Child, Instant)>>,
}

impl Runner {
    /// What the program prints, or how it failed.
    pub fn run(&self, input: &[u8]) -> Result<String, String> {
        let mut text = Vec::with_capacity(PIPE);
        let ran = self.start(input).and_then(|mut stdout| stdout.read_to_end(&mut text));
        let status = ran.and_then(|_| self.wait()).map_err(|error| error.to_string())?;
        if !status.success() {
            return Err(status.to_string());
        }
        String::from_utf8(text).map_err(|error| error.to_string())
    }

    /// Starts the program with its input. What a pipe holds stands there before, so that the program need not wait.
    fn start(&self, input: &[u8]) -> std::io::Result<impl Read> {
        let (stdin, mut writer) = pipe()?;
        let (first, rest) = input.split_at(input.len().min(PIPE));
        writer.write_all(first)?;
        let writer = (!rest.is_empty()).then_some(writer);
        let mut child = Command::new(&self.path).stdin(stdin).stdout(Stdio::piped()).spawn()?;
        let stdout = child.stdout.take().expect("stdout is piped");
        *self.running.lock().unwrap() = Some((child, Instant::now()));
        if let Some(mut writer) = writer {
            // The program need not read all of an input that is too long.
            let _ = writer.write_all(rest);
        }
        Ok(stdout)
    }

    /// Waits for the end of a program that has closed its output, which is near; one that hangs can still be ended.
    fn wait(&self) -> std::io::Result<ExitStatus> {
        loop {
            let mut running = self.running.lock().unwrap();
            let (child, _) = running.as_mut().expect("the program has been started");
            if let Some(status) = child.try_wait()? {
                *running = None;
                return Ok(status);
            }
            drop(running);
            thread::yield_now();
        }
    }

    fn end_if_it_hangs(&self) {
        if let Some((child, start)) = self.running.lock().unwrap().as_mut() {
            if start.elapsed() > PATIENCE {
                let _ = child.kill();
            }
        }
    }
}

/// Acts on a runner in each of some threads; one thread more ends runs that hang.
pub fn with_runners<T: Send>(threads: usize, act: impl Fn(usize, &Runner) -> T + Sync) -> Vec<T> {
    let runner = |_| Runner { path: found(path()), running: Mutex::new(None) };
    let (runners, done) = ((0..threads).map(runner).collect::<Vec<_>>(), AtomicBool::new(false));
    let act = &act;
    thread::scope(|scope| {
        scope.spawn(|| {
            while !done.load(Ordering::Relaxed) {
                runners.iter().for_each(Runner::end_if_it_hangs);
                thread::sleep(Duration::from_millis(50));
            }
        });
        let started: Vec<_> =
            runners.iter().enumerate().map(|(index, runner)| scope.spawn(move || act(index, runner))).collect();
        // All are waited for before a failure is passed on, which would leave the first thread running.
        let outcomes: Vec<_> = started.into_iter().map(|thread| thread.join()).collect();
        done.store(true, Ordering::Relaxed);
        outcomes.into_iter().map(|outcome| outcome.unwrap_or_else(|failure| resume_unwind(failure))).collect()
    })
}

pub fn with_runner(act: impl Fn(&Runner) + Sync) {
    with_runners(1, |_, runner| act(runner));
}
