//! Sheets checked by several threads, told in their order.

use super::{Checked, Checker};
use crate::engine::Engine;
use crate::exit::Failure;
use crate::input::Source;
use std::collections::BTreeMap;
use std::sync::atomic::{AtomicUsize, Ordering};
use std::sync::mpsc::{channel, Receiver, Sender};
use std::thread;

/// Checks each source, or what an engine says of its sheet, with so many threads, and tells each finding in the order
/// of the sources.
pub fn in_order(
    sources: &[Source],
    engine: Option<&Engine>,
    jobs: usize,
    tell: &mut dyn FnMut(Checked) -> Result<(), Failure>,
) -> Result<(), Failure> {
    let next = AtomicUsize::new(0);
    let (sender, receiver) = channel();
    thread::scope(|scope| {
        for _ in 0..jobs.min(sources.len()) {
            let (sender, next) = (sender.clone(), &next);
            let started = thread::Builder::new().spawn_scoped(scope, move || work(sources, engine, next, &sender));
            started.map_err(|error| Failure::about(&"a thread can't be started", &error))?;
        }
        drop(sender);
        // Where telling fails the receiver goes, and with it the threads end.
        tell_in_order(receiver, tell)
    })
}

/// Takes the next source until none is left, or until nobody listens.
fn work(sources: &[Source], engine: Option<&Engine>, next: &AtomicUsize, sender: &Sender<(usize, Checked)>) {
    let mut checker = Checker::new(engine);
    loop {
        let index = next.fetch_add(1, Ordering::Relaxed);
        let Some(source) = sources.get(index) else { return };
        if sender.send((index, checker.source(source))).is_err() {
            return;
        }
    }
}

fn tell_in_order(
    receiver: Receiver<(usize, Checked)>,
    tell: &mut dyn FnMut(Checked) -> Result<(), Failure>,
) -> Result<(), Failure> {
    let mut early = BTreeMap::new();
    let mut turn = 0;
    for (index, checked) in receiver {
        early.insert(index, checked);
        while let Some(checked) = early.remove(&turn) {
            tell(checked)?;
            turn += 1;
        }
    }
    Ok(())
}
