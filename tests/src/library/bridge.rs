//! The library in a program of its own machine, one for each thread that asks.

use crate::request::{self, Function, Request, OUT, RECORD};
use std::cell::RefCell;
use std::io::{Error, Read, Write};
use std::process::{Child, ChildStdin, ChildStdout, Stdio};

struct Bridge {
    program: Child,
    to: ChildStdin,
    from: ChildStdout,
}

impl Bridge {
    fn start() -> Bridge {
        let mut program = crate::programs::run(env!("CALLCONTROL_BRIDGE_PROGRAM"))
            .stdin(Stdio::piped())
            .stdout(Stdio::piped())
            .spawn()
            .unwrap_or_else(|error| panic!("the bridge does not start: {error}"));
        let to = program.stdin.take().expect("piped");
        let from = program.stdout.take().expect("piped");
        Bridge { program, to, from }
    }

    fn perform(&mut self, batch: &[u8], done: &mut Vec<u8>) -> Result<(), Error> {
        let len = u32::try_from(batch.len()).expect("batches are small");
        done.resize(batch.len(), 0);
        // The bridge reads all before it writes anything, so neither pipe can hold up both.
        self.to.write_all(&len.to_le_bytes())?;
        self.to.write_all(batch)?;
        self.from.read_exact(done)
    }
}

impl Drop for Bridge {
    fn drop(&mut self) {
        let _ = self.program.kill();
        let _ = self.program.wait();
    }
}

thread_local! {
    static BRIDGE: RefCell<Bridge> = RefCell::new(Bridge::start());
}

/// Makes the calls of a batch; `done` becomes the batch after them.
pub fn perform(batch: &[u8], done: &mut Vec<u8>) {
    BRIDGE.with_borrow_mut(|bridge| {
        let Err(error) = bridge.perform(batch, done) else { return };
        // Something in the batch ended the bridge. One by one, to see what it was.
        *bridge = Bridge::start();
        for frame in request::each(batch) {
            if bridge.perform(frame, done).is_err() {
                let how = bridge.program.wait().expect("it has ended");
                panic!("the library does not return ({how}) from {}", request::describe(frame));
            }
        }
        panic!("the bridge ended in a batch, but not when its calls are made one by one: {error}");
    })
}

/// One call alone.
fn call(function: Function, record: &mut [u8], input: &[u8], out: &mut [u8]) -> u32 {
    let (mut before, mut done) = (Vec::new(), Vec::new());
    Request::of(function, record, input, out.len(), 0xB5).holding(out).push(&mut before);
    perform(&before, &mut done);
    // The bytes around, and the input, are as they were: all differences lie in record and out.
    record.copy_from_slice(request::slice(&done, RECORD));
    out.copy_from_slice(request::slice(&done, OUT));
    let [record_before, _, out_before] = request::slices_mut(&mut before);
    record_before.copy_from_slice(record);
    out_before.copy_from_slice(out);
    assert!(
        request::same_bytes(&before, &done),
        "bytes that were not lent were changed by {}",
        request::describe(&before)
    );
    request::word(&done)
}

pub fn fresh(record: &mut [u8]) -> u32 {
    call(Function::Fresh, record, &[], &mut [])
}

pub fn step(record: &mut [u8], event: &[u8], out: &mut [u8]) -> u32 {
    call(Function::Step, record, event, out)
}

pub fn check_event(bytes: &[u8]) -> u32 {
    call(Function::CheckEvent, &mut [], bytes, &mut [])
}

pub fn check_message(bytes: &[u8]) -> u32 {
    call(Function::CheckMessage, &mut [], bytes, &mut [])
}

pub fn copy_event(bytes: &[u8], out: &mut [u8]) -> u32 {
    call(Function::CopyEvent, &mut [], bytes, out)
}

pub fn copy_message(bytes: &[u8], out: &mut [u8]) -> u32 {
    call(Function::CopyMessage, &mut [], bytes, out)
}
