//! Text that may grow without bound, of which only a little is held in memory.

use std::fs::{self, File, OpenOptions};
use std::io::{copy, Result, Seek, SeekFrom, Write};
use std::sync::atomic::{AtomicU32, Ordering};

/// The rest goes into a file.
const HELD: usize = 1 << 20;

#[derive(Default)]
pub struct Spool {
    held: Vec<u8>,
    file: Option<File>,
}

impl Spool {
    pub fn put(&mut self, text: &[u8]) -> Result<()> {
        self.held.extend_from_slice(text);
        if self.held.len() < HELD {
            return Ok(());
        }
        let file = match &mut self.file {
            Some(file) => file,
            empty => empty.insert(nameless()?),
        };
        file.write_all(&self.held)?;
        self.held.clear();
        Ok(())
    }

    /// All that was put in, in its order.
    pub fn give(mut self, out: &mut impl Write) -> Result<()> {
        if let Some(file) = &mut self.file {
            file.seek(SeekFrom::Start(0))?;
            copy(file, out)?;
        }
        out.write_all(&self.held)
    }
}

/// A file that is gone when it is closed.
fn nameless() -> Result<File> {
    static COUNT: AtomicU32 = AtomicU32::new(0);
    let count = COUNT.fetch_add(1, Ordering::Relaxed);
    let name = format!("replay-{}-{count}", std::process::id());
    let path = std::env::temp_dir().join(name);
    let file = OpenOptions::new().read(true).write(true).create_new(true).open(&path)?;
    fs::remove_file(path)?;
    Ok(file)
}
