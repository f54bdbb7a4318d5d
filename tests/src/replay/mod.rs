//! A set's log in words and as a picture: every record of an event file is handed to the proved
//! library, and what came of it is told.
//!
//! Nothing of this is proved. What a record is, what answers it and what is written are the
//! library's; names come from the account's table.

mod blocks;
mod chart;
mod player;
mod seen;
mod source;
mod spool;
pub mod stored;
mod summary;
mod words;

use blocks::Blocks;
use chart::Charts;
use player::Player;
use seen::Watch;
use source::{Batch, Item, Source};
use std::io::{Read, Result, Write};
use std::path::PathBuf;
use std::sync::atomic::{AtomicBool, Ordering::Relaxed};
use std::sync::mpsc::{sync_channel, Receiver, SyncSender};
use std::thread;
use words::Text;

pub use summary::{End, Summary};

#[derive(Clone, Debug, Default)]
pub struct Options {
    /// The file is hex text, with comments.
    pub hex: bool,
    /// Each record stands behind one byte, its place.
    pub console: bool,
    /// Where the charts go.
    pub svg: Option<PathBuf>,
    /// Of the blocks, those of refused records alone.
    pub refused: bool,
    /// What the charts call the file.
    pub title: String,
}

/// What could not be done.
#[derive(Debug)]
pub enum Fault {
    Read(std::io::Error),
    Write(std::io::Error),
    Chart(PathBuf, std::io::Error),
}

/// Batches on their way between the thread that plays and the one that writes.
const ON_THE_WAY: usize = 2;

/// Replays a file, and writes its text.
pub fn run(
    from: impl Read,
    options: &Options,
    out: &mut (impl Write + Send),
) -> std::result::Result<(), Fault> {
    // This thread has the library, which may be a program of its own, make steps; another tells of
    // them. Batches go round, so that none is made anew.
    let (played, to_tell) = sync_channel::<(Batch, Vec<u8>)>(ON_THE_WAY);
    let (told, to_fill) = sync_channel(ON_THE_WAY + 1);
    for _ in 0..ON_THE_WAY + 1 {
        told.send(Default::default()).expect("there is room");
    }
    let failed = &AtomicBool::new(false);
    thread::scope(|scope| {
        let teller = scope.spawn(move || {
            let mut teller = Teller::new(options);
            for (batch, results) in to_tell {
                teller.batch(&batch, &results, out)?;
                // Where nothing is played any more it is not wanted back.
                let _ = told.send((batch, results));
            }
            // What could be read is told of, but not of nothing.
            if failed.load(Relaxed) && teller.number == 0 {
                return Ok(());
            }
            teller.end(out)
        });
        let read = play(from, options, &played, &to_fill);
        failed.store(read.is_err(), Relaxed);
        drop((played, to_fill));
        let written = match teller.join() {
            Ok(written) => written,
            Err(panic) => std::panic::resume_unwind(panic),
        };
        written.and(read.map_err(Fault::Read))
    })
}

/// Plays a file to its end, or as long as somebody tells of it.
fn play(
    from: impl Read,
    options: &Options,
    played: &SyncSender<(Batch, Vec<u8>)>,
    to_fill: &Receiver<(Batch, Vec<u8>)>,
) -> Result<()> {
    let mut source = Source::new(from, options.hex, options.console);
    let mut player = Player::new(options.console);
    while let Ok((mut batch, mut results)) = to_fill.recv() {
        if !source.next(&mut batch)? {
            break;
        }
        player.play(&batch, &mut results);
        if played.send((batch, results)).is_err() {
            break;
        }
    }
    Ok(())
}

/// Tells of records in the order of the file.
struct Teller {
    only_refused: bool,
    watch: Watch,
    blocks: Blocks,
    summary: Summary,
    charts: Option<Charts>,
    head: usize,
    number: u64,
    /// The last line is that of a comment.
    in_comments: bool,
    text: Text,
}

impl Teller {
    fn new(options: &Options) -> Teller {
        Teller {
            only_refused: options.refused,
            watch: Watch::new(options.console),
            blocks: Blocks::new(),
            summary: Summary::new(options.console),
            charts: options
                .svg
                .as_ref()
                .map(|path| Charts::new(path.clone(), options.title.clone(), options.console)),
            head: Player::head(options.console),
            number: 0,
            in_comments: false,
            text: Text::default(),
        }
    }

    fn batch(
        &mut self,
        batch: &Batch,
        mut results: &[u8],
        out: &mut impl Write,
    ) -> std::result::Result<(), Fault> {
        self.text.clear();
        let mut bytes = &batch.bytes[..];
        for (at, item) in batch.items.iter().enumerate() {
            let head = match item {
                Item::Record(head) => head,
                Item::Before(comment) => {
                    if !self.only_refused {
                        self.text.put("# ").put(comment).put("\n");
                        self.in_comments = true;
                    }
                    continue;
                }
                Item::NoHex(fault) => {
                    self.text.put(fault).put("\n\n");
                    self.in_comments = false;
                    continue;
                }
                Item::Beside(_) => continue,
            };
            let (record, after) = bytes.split_at(head.size);
            bytes = after;
            let (result, after) = results.split_at(self.head + player::count(results));
            results = after;
            self.number += 1;
            self.in_comments = false;
            let comments = batch.items[at + 1..].iter().map_while(|item| match item {
                Item::Beside(comment) => Some(comment.as_str()),
                _ => None,
            });
            let about = (self.number, head.offset, head.line, head.fault);
            let (text, blocks, summary) = (&mut self.text, &self.blocks, &mut self.summary);
            let (charts, only_refused) = (&mut self.charts, self.only_refused);
            let mut fault = None;
            self.watch.see(about, record, result, |seen| {
                if !only_refused || !seen.taken() {
                    blocks.block(text, seen, comments);
                }
                fault = summary.add(seen).err().map(Fault::Write);
                if let Some(charts) = charts {
                    fault = fault.take().or(charts.add(seen).err());
                }
            });
            if let Some(fault) = fault {
                return Err(fault);
            }
        }
        out.write_all(&self.text.0).map_err(Fault::Write)
    }

    fn end(self, out: &mut impl Write) -> std::result::Result<(), Fault> {
        if let Some(charts) = self.charts {
            charts.end()?;
        }
        if self.in_comments {
            out.write_all(b"\n").map_err(Fault::Write)?;
        }
        self.summary.give(self.watch.calls(), out).map_err(Fault::Write)?;
        out.flush().map_err(Fault::Write)
    }
}
