//! Calls of the library beside what should come of them: the words must be equal, the lent bytes
//! must be equal, and no byte around them may have changed. What both engines have is asked of both.

use crate::account::{boundary, RECORD_LEN};
use crate::library;
use crate::request::{self, Request, OUT, RECORD};
use std::io::Write;

pub use crate::request::hex;

/// Calls with what is expected of each. Where the library is linked, each is made and compared at
/// once; where it is called over a bridge, many are kept back and then go over together. So what a
/// test goes on with is what was expected, and [`Queue::finish`] must be the last thing it asks.
#[derive(Default)]
pub struct Queue {
    /// The calls not yet made.
    sent: Vec<u8>,
    /// The same, and whatever was made since the last one was added, as they should be after.
    said: Vec<u8>,
    waiting: usize,
    done: Vec<u8>,
}

/// What is expected of a call.
pub struct Said<'a> {
    pub word: u32,
    pub answer: u32,
    pub place: u32,
    pub count: usize,
    pub record: &'a [u8],
    pub out: &'a [u8],
}

impl<'a> Said<'a> {
    pub fn written(&self) -> &'a [u8] {
        &self.out[..self.count]
    }

    /// The record after, which is as long as any record that was taken.
    pub fn next(&self) -> [u8; RECORD_LEN] {
        self.record.try_into().expect("still as long")
    }
}

const BATCH_CALLS: usize = 4096;
const BATCH_BYTES: usize = 1 << 20;

impl Queue {
    pub fn new() -> Queue {
        Queue::default()
    }

    /// `expected` is handed the record, the input and the buffer, makes of record and buffer what
    /// they should be afterwards, and gives the word.
    #[inline]
    pub fn check(
        &mut self,
        request: &Request,
        expected: impl FnOnce(&mut [u8], &[u8], &mut [u8]) -> u32,
    ) -> Said<'_> {
        if self.waiting >= BATCH_CALLS || self.sent.len() >= BATCH_BYTES {
            self.compare();
        }
        if self.sent.is_empty() {
            self.said.clear();
        }
        let start = self.sent.len();
        request.push(&mut self.sent);
        self.said.extend_from_slice(&self.sent[start..]);
        self.waiting += 1;

        let said = &mut self.said[start..];
        let [record, input, out] = request::slices_mut(said);
        let word = expected(record, input, out);
        request::set_word(said, word);
        let (answer, count) = request.function.split(word);
        assert!(
            matches!(answer, 0 | 4) || library::place(word) == 0,
            "a refusal but 4 has no place"
        );
        // Said by the paper directly, whatever is expected.
        assert!(
            answer == 0
                || (count == 0
                    && (!request.function.keeps_all(answer)
                        || request::same_bytes(said, &self.sent[start..]))),
            "a refusal that counts or changes bytes is expected of {}",
            request::describe(&self.sent[start..])
        );
        // The second engine must leave the same.
        if let Some(function) = request.function.of_second_engine() {
            let end = self.sent.len();
            Request { function, ..*request }.push(&mut self.sent);
            self.said.extend_from_within(start..end);
            request::set_function(&mut self.said[end..], function);
            self.waiting += 1;
        }
        if !library::BRIDGED {
            self.compare();
        }
        let said = &self.said[start..];
        Said {
            word,
            answer,
            place: library::place(word),
            count: count as usize,
            record: request::slice(said, RECORD),
            out: request::slice(said, OUT),
        }
    }

    /// One step, as the account makes it.
    #[inline]
    pub fn step(&mut self, record: &[u8], event: &[u8], out_len: usize, filler: u8) -> Said<'_> {
        self.check(&Request::step(record, event, out_len, filler), boundary::step)
    }

    fn compare(&mut self) {
        library::perform(&self.sent, &mut self.done);
        if self.done != self.said {
            let (mut done, mut said) = (&self.done[..], &self.said[..]);
            for before in request::each(&self.sent) {
                let (one_done, done_after) = done.split_at(before.len());
                let (one_said, said_after) = said.split_at(before.len());
                if one_done != one_said {
                    let difference = request::difference(before, one_done, one_said);
                    panic!("the library differs from what is expected\n{difference}");
                }
                (done, said) = (done_after, said_after);
            }
        }
        self.sent.clear();
        self.waiting = 0;
    }

    /// Makes and compares what was kept back.
    pub fn finish(mut self) {
        self.compare();
    }
}

impl Drop for Queue {
    fn drop(&mut self) {
        if !std::thread::panicking() {
            assert!(self.sent.is_empty(), "a queue was dropped before it was finished");
        }
    }
}

/// What the library made of a call.
pub struct Done {
    pub word: u32,
    pub record: Vec<u8>,
    pub out: Vec<u8>,
}

/// One call of which only this is expected: it returns, and changes no byte but those of the record
/// and the buffer, and by a refusal not those. For bytes that no run gives, where the paper is silent.
pub fn alone(request: &Request) -> Done {
    let (mut before, mut done) = (Vec::new(), Vec::new());
    request.push(&mut before);
    library::perform(&before, &mut done);
    let word = request::word(&done);
    let (answer, _) = request.function.split(word);
    if answer == 0 || !request.function.keeps_all(answer) {
        for which in [RECORD, OUT] {
            request::slices_mut(&mut before)[which].copy_from_slice(request::slice(&done, which));
        }
    }
    assert!(
        request::same_bytes(&before, &done),
        "bytes that may not change were changed by {}",
        request::describe(&before)
    );
    let [record, out] = [RECORD, OUT].map(|which| request::slice(&done, which).to_vec());
    Done { word, record, out }
}

/// Tells what a test has seen, also when it passes (the test harness keeps back what is printed
/// by macros).
pub fn tell(text: &str) {
    let _ = writeln!(std::io::stderr(), "{text}");
}
