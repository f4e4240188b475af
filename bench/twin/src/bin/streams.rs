//! Makes the benchmark streams: `streams FOLDER` writes one file of 8,192 call records for each n of
//! 3, 7, 12 and each kind of stream. The same bytes come out every time.

#![forbid(unsafe_code)]

use std::path::Path;
use std::{env, fs, io, process};
use twin::calls::LIMIT;
use twin::code::words;
use twin::group::{ENDURANCE, Group, TOP};

/// Adds the next calls to a stream.
type Kind = fn(&mut Stream);

/// A stream being made, with the group that its calls so far have left.
struct Stream {
    bytes: Vec<u8>,
    group: Group,
    chance: Chance,
}

/// A 64-bit linear congruential generator; its high half is used.
struct Chance(u64);

impl Chance {
    /// A number below `bound`.
    fn below(&mut self, bound: u32) -> u32 {
        self.0 = self.0.wrapping_mul(6_364_136_223_846_793_005).wrapping_add(1_442_695_040_888_963_407);
        (((self.0 >> 32) * u64::from(bound)) >> 32) as u32
    }

    fn one_in(&mut self, times: u32) -> bool {
        self.below(times) == 0
    }

    fn one_of<T: Copy, const N: usize>(&mut self, choices: [T; N]) -> T {
        choices[self.below(N as u32) as usize]
    }
}

impl Stream {
    fn new(n: u32) -> Stream {
        let group = Group::open(n, ENDURANCE).expect("n is 3 to 12");
        Stream { bytes: Vec::with_capacity(LIMIT), group, chance: Chance(n.into()) }
    }

    fn full(&self) -> bool {
        self.bytes.len() >= LIMIT
    }

    fn record(&mut self, kind: u8, cell: u8, zeros: [u8; 2], value: u32) {
        self.bytes.extend([kind, cell]);
        self.bytes.extend(zeros);
        self.bytes.extend(value.to_le_bytes());
    }

    fn n(&self) -> u32 {
        self.group.n() as u32
    }

    fn symbols(&self) -> u32 {
        words(self.group.n()).expect("n is 3 to 12")
    }

    fn any_cell(&mut self) -> u8 {
        1 + self.chance.below(self.n()) as u8
    }

    fn open(&mut self) {
        self.record(0, 0, [0; 2], self.n());
        self.group = Group::open(self.n(), ENDURANCE).expect("n is 3 to 12");
    }

    fn store(&mut self) {
        let symbol = self.chance.below(self.symbols());
        self.record(1, 0, [0; 2], symbol);
        let _ = self.group.store(symbol);
    }

    fn scrub(&mut self) {
        self.record(2, 0, [0; 2], 0);
        let _ = self.group.scrub();
    }

    fn leak(&mut self, cell: u8, d: u32) {
        self.record(3, cell, [0; 2], d);
        let _ = self.group.leak(cell, d);
    }

    fn wear(&mut self, cell: u8, cap: u32) {
        self.record(4, cell, [0; 2], cap);
        let _ = self.group.wear(cell, cap);
    }

    fn erase(&mut self) {
        self.record(5, 0, [0; 2], 0);
        self.group.erase();
    }

    fn read(&mut self) {
        self.record(6, 0, [0; 2], 0);
    }

    /// Erases a group that is nearly worn, and any group now and then.
    fn erase_in_time(&mut self) {
        let high = self.group.levels().iter().any(|&level| level > TOP - 40);
        if high || self.chance.one_in(1000) {
            self.erase();
            self.store();
        }
    }

    /// A leak of 1 or 2 from some cell, which most readings bear.
    fn small_leak(&mut self) {
        let cell = self.any_cell();
        let d = 1 + self.chance.below(2);
        self.leak(cell, d);
    }
}

/// Nine stores in ten calls.
fn store_heavy(stream: &mut Stream) {
    stream.erase_in_time();
    match stream.chance.below(40) {
        0 | 1 => stream.read(),
        2 => stream.small_leak(),
        3 => stream.scrub(),
        _ => stream.store(),
    }
}

/// Six reads in seven calls, clean, put right and lost.
fn read_heavy(stream: &mut Stream) {
    stream.erase_in_time();
    match stream.chance.below(28) {
        0 | 1 => stream.store(),
        2 | 3 => stream.small_leak(),
        _ => stream.read(),
    }
}

/// Leaks followed by scrubs; a lost group is stored to.
fn scrub_heavy(stream: &mut Stream) {
    stream.erase_in_time();
    if stream.group.read().is_err() || stream.chance.one_in(50) {
        stream.store();
    }
    if !stream.chance.one_in(3) {
        stream.small_leak();
    }
    stream.scrub();
    stream.scrub();
}

/// What a caller should not send, among calls that are accepted.
fn hostile(stream: &mut Stream) {
    let n = stream.n();
    let symbols = stream.symbols();
    let cell = stream.any_cell();
    let level = u32::from(stream.group.levels()[usize::from(cell) - 1]);
    let cap = u32::from(stream.group.caps()[usize::from(cell) - 1]);
    let chance = &mut stream.chance;
    let any = chance.below(u32::MAX);
    let no_cell = chance.one_of([0, n as u8 + 1, 255]);
    match chance.below(24) {
        // unknown kinds
        0 => stream.record(7 + (any % 249) as u8, 0, [0; 2], 0),
        // fields that should be 0
        1 => {
            let zeros = chance.one_of([[1, 0], [0, 255]]);
            stream.record((any % 7) as u8, 0, zeros, n);
        }
        2 => {
            let kind = chance.one_of([0, 1, 2, 5, 6]);
            stream.record(kind, cell, [0; 2], n);
        }
        3 => {
            let kind = chance.one_of([2, 5, 6]);
            stream.record(kind, 0, [0; 2], any | 1);
        }
        // bad cells
        4 => stream.leak(no_cell, any),
        5 => stream.wear(no_cell, any),
        // bad symbols
        6 => {
            let symbol = chance.one_of([symbols, symbols + 1, u32::MAX]);
            stream.record(1, 0, [0; 2], symbol);
        }
        // caps up
        7 => {
            let cap = chance.one_of([cap + 1, cap + 65_536, u32::MAX]);
            stream.wear(cell, cap);
        }
        // caps down to near the level, until stores are worn
        8 => {
            let near = chance.one_of([level / 2, level + 1, level + 9, level + 40]);
            stream.wear(cell, cap.min(near));
        }
        // refused opens
        9 => {
            let n = chance.one_of([0, 2, 13, 259, u32::MAX]);
            stream.record(0, 0, [0; 2], n);
        }
        // blank readings
        10 => {
            stream.erase();
            stream.read();
            stream.scrub();
        }
        11 => stream.open(),
        // leaks to the ground, after which readings are often lost
        12 | 13 => {
            stream.leak(cell, any);
            stream.read();
        }
        14 => stream.small_leak(),
        15 => stream.scrub(),
        16..19 => stream.read(),
        _ => stream.store(),
    }
}

/// 8,192 records; calls to no group come first in a hostile stream.
fn stream(n: u32, kind: Kind, hostile: bool) -> Vec<u8> {
    let mut stream = Stream::new(n);
    if hostile {
        for unopened in 1..=8 {
            stream.record(unopened, 0, [0; 2], 0);
        }
    }
    stream.open();
    stream.store();
    while !stream.full() {
        kind(&mut stream);
    }
    stream.bytes.truncate(LIMIT);
    stream.bytes
}

fn main() -> io::Result<()> {
    let Some(folder) = env::args_os().nth(1) else {
        eprintln!("usage: streams FOLDER");
        process::exit(2);
    };
    let kinds: [(&str, Kind); 4] =
        [("store", store_heavy), ("read", read_heavy), ("scrub", scrub_heavy), ("hostile", hostile)];
    fs::create_dir_all(&folder)?;
    for (name, kind) in kinds {
        for n in [3, 7, 12] {
            let bytes = stream(n, kind, name == "hostile");
            fs::write(Path::new(&folder).join(format!("{name}-{n:02}")), bytes)?;
        }
    }
    Ok(())
}
