//! The stack of a call: how far down it writes, and in how small a thread it ends.

use crate::measure::PAGE;
use crate::slow::{self, Slow};
use std::hint::black_box;
use std::process::{Command, Stdio};

/// So much below the caller is looked at, from a little below it on.
const STACK: usize = 2 << 20;
const NEAR: usize = 1024;
const MARK: u8 = 0xC7;

/// Marks the stack below.
#[inline(never)]
fn paint() {
    let here = 0u8;
    let top = black_box(&raw const here).cast_mut();
    for below in NEAR..STACK {
        // SAFETY: the thread's stack is larger, and nothing below this frame is in use.
        unsafe { top.sub(below).write_volatile(MARK) }
    }
}

/// How far down the marks are written over.
#[inline(never)]
fn painted_over() -> usize {
    let here = 0u8;
    let top = black_box(&raw const here);
    // SAFETY: as above.
    (NEAR..STACK).rev().find(|&below| unsafe { top.sub(below).read_volatile() } != MARK).unwrap_or(NEAR)
}

/// Bytes of stack that one call takes.
pub fn of(sheet: &[u8]) -> usize {
    let mut out = vec![0; tirvouez::room(PAGE)];
    let mut scratch = vec![0; tirvouez::SCRATCH];
    paint();
    black_box(tirvouez::check(sheet, &mut scratch, 0, &mut out));
    painted_over()
}

/// A call in the least thread in which it ends.
pub struct Least {
    pub about: String,
    pub marks: usize,
    /// The thread's stack, in KiB.
    pub kib: usize,
}

/// What threads take.
pub struct Threads {
    /// The deepest calls.
    pub calls: Vec<Least>,
    /// What a thread needs for itself, in KiB.
    pub own: usize,
}

/// Stands for a call that writes over `BLOCK` bytes of stack, whatever the index.
const TOUCH: &str = "touch";
const BLOCK: usize = 200 << 10;
/// Stacks are tried in steps of 4 KiB, up to 2 MiB.
const STEP: usize = 4;
const STEPS: usize = 512;
const DEEPEST: usize = 5;

/// The deepest calls by their marks, each in the least thread.
pub fn deepest(slow: &[Slow]) -> Result<Threads, String> {
    let mut order: Vec<usize> = (0..slow.len()).collect();
    order.sort_by_key(|&index| std::cmp::Reverse(slow[index].stack));
    let mut calls = Vec::new();
    for &index in order.iter().take(DEEPEST) {
        let Slow { sample, stack } = &slow[index];
        calls.push(Least { about: sample.label.clone(), marks: *stack, kib: least(&index.to_string())? });
    }
    Ok(Threads { calls, own: least(TOUCH)?.saturating_sub(BLOCK >> 10) })
}

/// The least stack in KiB: what ends in a thread ends in a larger one.
fn least(index: &str) -> Result<usize, String> {
    let (mut below, mut enough) = (0, STEPS);
    if !ends(enough * STEP, index)? {
        return Err(format!("sheet {index} does not end in a thread of {} KiB", enough * STEP));
    }
    while below + 1 < enough {
        let middle = (below + enough) / 2;
        if ends(middle * STEP, index)? {
            enough = middle;
        } else {
            below = middle;
        }
    }
    Ok(enough * STEP)
}

/// In a process of its own, since a stack that is too small ends the process by a signal.
fn ends(kib: usize, index: &str) -> Result<bool, String> {
    let program = std::env::current_exe().map_err(|error| error.to_string())?;
    let mut command = Command::new(program);
    command.args(["--in-thread", &kib.to_string(), index]).stdout(Stdio::null()).stderr(Stdio::null());
    match command.status().map_err(|error| error.to_string())?.code() {
        Some(0) => Ok(true),
        None => Ok(false),
        Some(code) => Err(format!("sheet {index} in a thread of {kib} KiB: code {code}")),
    }
}

/// `speed --in-thread KIB INDEX`: a call on the slow sheet of this number, in a thread with such a stack; buffers lie elsewhere.
pub fn in_thread(kib: &str, index: &str) -> Result<(), String> {
    let kib: usize = kib.parse().map_err(|_| "no size")?;
    if index == TOUCH {
        return thread(kib, touch);
    }
    let number: usize = index.parse().map_err(|_| "no number")?;
    let (_, sheet) = slow::sheets().into_iter().nth(number).ok_or("no such sheet")?;
    let call = |sheet: &[u8]| {
        let (mut scratch, mut out) = (vec![0; tirvouez::SCRATCH], vec![0; tirvouez::room(PAGE)]);
        tirvouez::check(sheet, &mut scratch, 0, &mut out);
        out
    };
    let wanted = call(&sheet);
    if thread(kib, move || call(&sheet))? == wanted { Ok(()) } else { Err("DIFFERS".to_string()) }
}

fn thread<T: Send + 'static>(kib: usize, work: impl FnOnce() -> T + Send + 'static) -> Result<T, String> {
    let thread = std::thread::Builder::new().stack_size(kib << 10).spawn(work).map_err(|error| error.to_string())?;
    thread.join().map_err(|_| "no end".to_string())
}

#[inline(never)]
fn touch() {
    black_box(&mut [0xA5u8; BLOCK]);
}
