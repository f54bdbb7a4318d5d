//! Direct mode, the outgoing call with presence check: a second account, from request 14 of document
//! 02 and from document 004 (EN 300 396-3, clause 6.2.2.1) alone. The functions are those of the
//! library, over slices, each returning answer * 2^24 + place * 2^16 + count.

/// Bytes of a record: state, target, lowest, limit, used, DT303, DT311.
pub const RECORD_LEN: usize = 7;

/// The most that one step writes.
pub const STEP_MAX: usize = 27;

const IDLE: u8 = 0;
const PRESENCE_CHECK: u8 = 1;
const ACTIVE: u8 = 2;

const fn refused(answer: u32) -> u32 {
    answer << 24
}

/// The fields behind the head of an event, one after the other: how many bytes each takes and what
/// it may be.
fn event_fields(kind: u16) -> Option<&'static [Field]> {
    Some(match kind {
        0x0801 => &[Field::Any, Field::Any, Field::Any],
        0x0802 => &[Field::Report],
        0x0803 => &[Field::Any],
        0x0804 => &[],
        0x0805 => &[Field::Timer],
        _ => return None,
    })
}

fn message_fields(kind: u16) -> Option<&'static [Field]> {
    Some(match kind {
        0x0901 => &[Field::Any, Field::Any],
        0x0902 | 0x0913 | 0x0921 => &[Field::Any],
        0x0903 | 0x0922 => &[],
        0x0911 | 0x0912 => &[Field::Timer],
        _ => return None,
    })
}

#[derive(Clone, Copy)]
enum Field {
    Any,
    Report,
    Timer,
}

impl Field {
    fn len(self) -> usize {
        match self {
            Field::Any | Field::Report => 1,
            Field::Timer => 2,
        }
    }

    fn holds(self, bytes: &[u8]) -> bool {
        match self {
            Field::Any => true,
            Field::Report => bytes[0] <= 2,
            Field::Timer => matches!(u16::from_le_bytes([bytes[0], bytes[1]]), 303 | 311),
        }
    }
}

/// The kind of a record that reads, or the word of the refusal.
fn read(bytes: &[u8], fields: fn(u16) -> Option<&'static [Field]>) -> Result<u16, u32> {
    if bytes.len() < 4 || usize::from(u16::from_le_bytes([bytes[0], bytes[1]])) != bytes.len() {
        return Err(refused(2));
    }
    let kind = u16::from_le_bytes([bytes[2], bytes[3]]);
    let fields = fields(kind).ok_or(refused(3))?;
    let bad_at = |place: usize| refused(4) | (place as u32) << 16;
    if bytes.len() != 4 + fields.iter().map(|field| field.len()).sum::<usize>() {
        return Err(bad_at(2));
    }
    let mut at = 4;
    for field in fields {
        if !field.holds(&bytes[at..]) {
            return Err(bad_at(at));
        }
        at += field.len();
    }
    Ok(kind)
}

pub fn fresh(record: &mut [u8]) -> u32 {
    if record.len() != RECORD_LEN {
        return refused(1);
    }
    record.fill(0);
    RECORD_LEN as u32
}

pub fn check_event(bytes: &[u8]) -> u32 {
    read(bytes, event_fields).map_or_else(|word| word, |_| 0)
}

pub fn check_message(bytes: &[u8]) -> u32 {
    read(bytes, message_fields).map_or_else(|word| word, |_| 0)
}

pub fn copy_event(bytes: &[u8], out: &mut [u8]) -> u32 {
    copy(read(bytes, event_fields), bytes, out)
}

pub fn copy_message(bytes: &[u8], out: &mut [u8]) -> u32 {
    copy(read(bytes, message_fields), bytes, out)
}

fn copy(read: Result<u16, u32>, bytes: &[u8], out: &mut [u8]) -> u32 {
    match read {
        Err(word) => word,
        Ok(_) if out.len() < bytes.len() => refused(7),
        Ok(_) => {
            out[..bytes.len()].copy_from_slice(bytes);
            bytes.len() as u32
        }
    }
}

fn sound(record: &[u8]) -> bool {
    let &[state, target, lowest, limit, used, dt303, dt311] = record else {
        return false;
    };
    if state > 2 || dt303 > 1 || dt311 > 1 {
        return false;
    }
    if state == IDLE {
        return record.iter().all(|&byte| byte == 0);
    }
    (1..=15).contains(&limit)
        && (1..=limit).contains(&used)
        && lowest <= target
        && (dt311 == 1) == (state == ACTIVE)
        && (dt303 == 0 || state == PRESENCE_CHECK)
}

/// Messages of one step, in the order of writing.
#[derive(Default)]
struct Written {
    bytes: [u8; STEP_MAX],
    len: usize,
}

impl Written {
    fn put(&mut self, kind: u16, body: &[u8]) {
        let size = 4 + body.len();
        let to = &mut self.bytes[self.len..][..size];
        to[..2].copy_from_slice(&(size as u16).to_le_bytes());
        to[2..4].copy_from_slice(&kind.to_le_bytes());
        to[4..].copy_from_slice(body);
        self.len += size;
    }
}

const DT303: [u8; 2] = 303u16.to_le_bytes();
const DT311: [u8; 2] = 311u16.to_le_bytes();

pub fn step(record: &mut [u8], event: &[u8], out: &mut [u8]) -> u32 {
    if !sound(record) {
        return refused(1);
    }
    let kind = match read(event, event_fields) {
        Ok(kind) => kind,
        Err(word) => return word,
    };
    let body = &event[4..];
    if kind == 0x0801 {
        let [target, lowest, attempts] = [body[0], body[1], body[2]];
        if attempts == 0 || attempts > 15 || lowest > target {
            return refused(60);
        }
    }
    let mut written = Written::default();
    let Some(next) = row(record, kind, body, &mut written) else {
        return refused(61);
    };
    if written.len > out.len() {
        return refused(7);
    }
    record.copy_from_slice(&next);
    out[..written.len].copy_from_slice(&written.bytes[..written.len]);
    written.len as u32
}

/// What an event does in each state, or nothing where there is no row.
fn row(record: &[u8], kind: u16, body: &[u8], written: &mut Written) -> Option<[u8; RECORD_LEN]> {
    let mut next: [u8; RECORD_LEN] = record.try_into().expect("a sound record");
    let [state, target, lowest, limit, used, dt303, _] = next;
    let fresh = [0; RECORD_LEN];
    match (state, dt303 == 1, kind) {
        // "convert the DMCC-SETUP request into a corresponding DM-SETUP PRES PDU and send it"
        (IDLE, _, 0x0801) => {
            written.put(0x0901, &body[..2]);
            Some([PRESENCE_CHECK, body[0], body[1], body[2], 1, 0, 0])
        }
        // "start timer DT303 and await a response"
        (PRESENCE_CHECK, false, 0x0802) if body[0] == 0 => {
            written.put(0x0912, &DT303);
            next[5] = 1;
            Some(next)
        }
        // "DMA-REPORT busy or unknown is a release"
        (PRESENCE_CHECK, false, 0x0802) => {
            written.put(0x0922, &[]);
            Some(fresh)
        }
        // "accepting the requested service or offering an acceptable reduced service"
        (PRESENCE_CHECK, true, 0x0803) if (lowest..=target).contains(&body[0]) => {
            written.put(0x0911, &DT303);
            written.put(0x0902, body);
            written.put(0x0912, &DT311);
            written.put(0x0913, body);
            written.put(0x0921, body);
            Some([ACTIVE, target, lowest, limit, used, 0, 1])
        }
        // "offering a reduced service that is not acceptable", and "a DM-DISCONNECT PDU"
        (PRESENCE_CHECK, true, 0x0803 | 0x0804) => {
            written.put(0x0911, &DT303);
            written.put(0x0903, &[]);
            written.put(0x0922, &[]);
            Some(fresh)
        }
        // "Expiry sends DM-RELEASE, then DM-SETUP PRES if attempts remain, else the release indication"
        (PRESENCE_CHECK, true, 0x0805) if body == DT303 => {
            written.put(0x0903, &[]);
            if used < limit {
                written.put(0x0901, &[target, lowest]);
                Some([state, target, lowest, limit, used + 1, 0, 0])
            } else {
                written.put(0x0922, &[]);
                Some(fresh)
            }
        }
        _ => None,
    }
}
