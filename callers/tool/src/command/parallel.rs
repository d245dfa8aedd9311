//! Works on many inputs with all cores, and takes the outputs in the inputs' order.

use std::collections::HashMap;
use std::ops::ControlFlow;
use std::sync::{Condvar, Mutex, MutexGuard, PoisonError};
use std::thread;

/// The stack of a thread: the library takes less than 256 KiB of it (docs/SPEED.md).
const STACK: usize = 1 << 21;
/// How far each thread may be ahead of the taking, so that outputs do not pile up.
const AHEAD: usize = 8;

struct State<O> {
    /// The next input to work on, and the next output to take.
    next: usize,
    taken: usize,
    ready: HashMap<usize, O>,
    stopped: bool,
}

struct Queue<O> {
    state: Mutex<State<O>>,
    changed: Condvar,
    ahead: usize,
}

impl<O> Queue<O> {
    fn lock(&self) -> MutexGuard<'_, State<O>> {
        self.state.lock().unwrap_or_else(PoisonError::into_inner)
    }

    fn wait<'g>(&self, guard: MutexGuard<'g, State<O>>, until: impl Fn(&State<O>) -> bool) -> MutexGuard<'g, State<O>> {
        self.changed.wait_while(guard, |state| !until(state)).unwrap_or_else(PoisonError::into_inner)
    }

    /// The number of an input that nobody has worked on.
    fn input(&self, count: usize) -> Option<usize> {
        let mut state = self.wait(self.lock(), |state| state.stopped || state.next < state.taken + self.ahead);
        let number = state.next;
        state.next += 1;
        (number < count && !state.stopped).then_some(number)
    }

    fn put(&self, number: usize, output: O) {
        let mut state = self.lock();
        state.ready.insert(number, output);
        let awaited = number == state.taken;
        drop(state);
        if awaited {
            self.changed.notify_all();
        }
    }

    /// The next output; none where a worker panicked.
    fn take(&self) -> Option<O> {
        let mut state = self.wait(self.lock(), |state| state.stopped || state.ready.contains_key(&state.taken));
        let number = state.taken;
        state.taken += 1;
        let output = state.ready.remove(&number);
        // those who wait for room
        if state.next >= number + self.ahead {
            self.changed.notify_all();
        }
        output
    }

    fn stop(&self) {
        self.lock().stopped = true;
        self.changed.notify_all();
    }
}

/// Stops the queue where its thread panics, so that nobody waits for what it does not put.
struct Watch<'q, O>(&'q Queue<O>);

impl<O> Drop for Watch<'_, O> {
    fn drop(&mut self) {
        if std::thread::panicking() {
            self.0.stop();
        }
    }
}

/// Each thread makes a worker of its own; where there can be none, or none is needed, this one works alone. Ends before the last input where
/// `take` says so.
pub fn in_order<I: Sync, O: Send, W>(
    inputs: &[I],
    threads: usize,
    worker: impl Fn() -> W + Sync,
    work: impl Fn(&mut W, &I) -> O + Sync,
    mut take: impl FnMut(O) -> ControlFlow<()>,
) {
    let state = State { next: 0, taken: 0, ready: HashMap::new(), stopped: false };
    let queue = Queue { state: Mutex::new(state), changed: Condvar::new(), ahead: AHEAD * threads };
    let run = || {
        let _watch = Watch(&queue);
        let mut worker = worker();
        while let Some(number) = queue.input(inputs.len()) {
            queue.put(number, work(&mut worker, &inputs[number]));
        }
    };
    thread::scope(|scope| {
        let wanted = if inputs.len() > 1 { threads.min(inputs.len()) } else { 0 };
        let crew = (0..wanted).map_while(|_| thread::Builder::new().stack_size(STACK).spawn_scoped(scope, run).ok()).count();
        let mut alone = (crew == 0).then(&worker);
        for input in inputs {
            let output = match &mut alone {
                Some(worker) => Some(work(worker, input)),
                None => queue.take(),
            };
            if output.is_none_or(|output| take(output).is_break()) {
                break;
            }
        }
        queue.stop();
    });
}

#[cfg(test)]
mod tests {
    use super::*;

    fn outputs(count: usize, threads: usize, end: usize) -> Vec<usize> {
        let (inputs, mut taken): (Vec<usize>, _) = ((0..count).collect(), Vec::new());
        let work = |_: &mut (), input: &usize| {
            // the later ones are often ready first
            thread::sleep(std::time::Duration::from_micros(*input as u64 * 37 % 11));
            *input
        };
        in_order(
            &inputs,
            threads,
            || (),
            work,
            |output| {
                taken.push(output);
                if output == end { ControlFlow::Break(()) } else { ControlFlow::Continue(()) }
            },
        );
        taken
    }

    #[test]
    fn in_the_order_of_the_inputs() {
        for (count, threads) in [(0, 4), (1, 4), (2, 4), (1_000, 1), (1_000, 4)] {
            assert!(outputs(count, threads, usize::MAX).into_iter().eq(0..count), "{count} by {threads}");
        }
        assert!(outputs(1_000, 4, 300).into_iter().eq(0..=300), "ended early");
    }

    #[test]
    fn a_panic_is_handed_on() {
        let inputs = [1, 2, 3, 4, 5, 6, 7, 8];
        let run = || in_order(&inputs, 2, || (), |_, input| assert_ne!(*input, 5), |_| ControlFlow::Continue(()));
        assert!(std::panic::catch_unwind(run).is_err());
    }
}
