//! Run files: the three parts in their order, the numbered refusals, and the writer of good files.

pub const MAX_FILE: usize = 53_264;
pub const MAX_STATIONS: u8 = 32;
pub const MAX_CALLS: usize = 1_024;
pub const MAX_TURNS: usize = 40_960;
pub const RECORD: usize = 12;
pub const TRAILER: usize = 16;

/// A numbered refusal: N and K of document 01.
#[derive(Clone, Copy, Debug, PartialEq, Eq)]
pub struct Refusal {
    pub number: u32,
    pub k: u32,
}

impl Refusal {
    /// The line that the report program prints.
    pub fn line(self) -> String {
        format!("refused {} {}\n", self.number, self.k)
    }
}

#[derive(Clone, Copy, Debug, PartialEq, Eq)]
pub enum Kind {
    Read,
    Set,
    Swap,
}

impl Kind {
    pub fn word(self) -> &'static str {
        match self {
            Kind::Read => "read",
            Kind::Set => "set",
            Kind::Swap => "swap",
        }
    }
}

#[derive(Clone, Copy, Debug, PartialEq, Eq)]
pub struct Call {
    pub station: u8,
    pub kind: Kind,
    pub a: u32,
    pub b: u32,
}

/// A good run file, its parts where they stand.
#[derive(Clone, Copy, Debug)]
pub struct RunFile<'a> {
    pub x: u32,
    pub n: u8,
    table: &'a [u8],
    pub turns: &'a [u8],
}

impl<'a> RunFile<'a> {
    pub fn calls(&self) -> impl DoubleEndedIterator<Item = Call> + ExactSizeIterator + 'a {
        self.table.chunks_exact(RECORD).map(call_of)
    }

    /// The call at this place of the table, from 0.
    #[inline]
    pub fn call(&self, at: usize) -> Call {
        call_of(&self.table[RECORD * at..RECORD * (at + 1)])
    }
}

fn word_at(bytes: &[u8], at: usize) -> u32 {
    u32::from_le_bytes([bytes[at], bytes[at + 1], bytes[at + 2], bytes[at + 3]])
}

fn call_of(record: &[u8]) -> Call {
    let kind = match record[2] {
        0 => Kind::Read,
        1 => Kind::Set,
        _ => Kind::Swap,
    };
    Call { station: record[0], kind, a: word_at(record, 4), b: word_at(record, 8) }
}

fn good_record(record: &[u8], n: u8) -> bool {
    let station = u16::from_le_bytes([record[0], record[1]]);
    let values = record[4..].iter().any(|&byte| byte != 0);
    (1..=u16::from(n)).contains(&station) && record[2] <= 2 && record[3] == 0 && !(record[2] == 0 && values)
}

/// The first refusal that holds, or the parts of the file.
pub fn read(file: &[u8]) -> Result<RunFile<'_>, Refusal> {
    let refuse = |number| Err(Refusal { number, k: 0 });
    if file.len() < TRAILER || file.len() > MAX_FILE {
        return refuse(1);
    }
    let (body, trailer) = file.split_at(file.len() - TRAILER);
    let n = trailer[4];
    let q = usize::from(u16::from_le_bytes([trailer[6], trailer[7]]));
    let to_table = u64::from(word_at(trailer, 8));
    let t = u64::from(word_at(trailer, 12));
    if trailer[5] != 1 {
        return refuse(2);
    }
    if n == 0 || n > MAX_STATIONS {
        return refuse(3);
    }
    if q > MAX_CALLS {
        return refuse(4);
    }
    if t > MAX_TURNS as u64 {
        return refuse(5);
    }
    if to_table != t + (RECORD * q) as u64 || body.len() as u64 != to_table {
        return refuse(6);
    }
    let (table, turns) = body.split_at(RECORD * q);
    parts_are_good(table, turns, n)?;
    Ok(RunFile { x: word_at(trailer, 0), n, table, turns })
}

fn parts_are_good(table: &[u8], turns: &[u8], n: u8) -> Result<(), Refusal> {
    if let Some(at) = table.chunks_exact(RECORD).position(|record| !good_record(record, n)) {
        return Err(Refusal { number: 7, k: at as u32 + 1 });
    }
    if let Some(at) = turns.iter().position(|&turn| turn == 0 || turn > n) {
        return Err(Refusal { number: 8, k: at as u32 + 1 });
    }
    Ok(())
}

/// What the writer gives for these parts, of whatever lengths: the file, or the first refusal that holds. Its buffer is
/// long enough.
pub fn write_parts(x: u32, n: u32, table: &[u8], turns: &[u8]) -> Result<Vec<u8>, Refusal> {
    let refuse = |number| Err(Refusal { number, k: 0 });
    let stations = match u8::try_from(n) {
        Ok(stations) if (1..=MAX_STATIONS).contains(&stations) => stations,
        _ => return refuse(3),
    };
    if table.len() / RECORD > MAX_CALLS {
        return refuse(4);
    }
    if turns.len() > MAX_TURNS {
        return refuse(5);
    }
    if !table.len().is_multiple_of(RECORD) {
        return refuse(6);
    }
    parts_are_good(table, turns, stations)?;
    let calls: Vec<Call> = table.chunks_exact(RECORD).map(call_of).collect();
    Ok(write(x, stations, &calls, turns))
}

/// The file of these parts, with no test: random and damaged files are made by it too.
pub fn write(x: u32, n: u8, calls: &[Call], turns: &[u8]) -> Vec<u8> {
    let mut file = Vec::with_capacity(TRAILER + turns.len() + RECORD * calls.len());
    for call in calls {
        file.extend_from_slice(&[call.station, 0, call.kind as u8, 0]);
        file.extend_from_slice(&call.a.to_le_bytes());
        file.extend_from_slice(&call.b.to_le_bytes());
    }
    file.extend_from_slice(turns);
    let t = turns.len() as u32;
    let q = calls.len() as u16;
    file.extend_from_slice(&x.to_le_bytes());
    file.extend_from_slice(&[n, 1]);
    file.extend_from_slice(&q.to_le_bytes());
    file.extend_from_slice(&(t + 12 * u32::from(q)).to_le_bytes());
    file.extend_from_slice(&t.to_le_bytes());
    file
}
