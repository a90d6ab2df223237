//! A small generator of random numbers, and of the calls, tables and files that the tests use.

use crate::call::Call;
use crate::plain::heap::{BASE, LOCK, MARK};
use crate::plain::takes;
use crate::record::Record;

/// How many times as many cases to make, by environment variable TULIVOMBE_TIMES.
pub fn times() -> u32 {
    std::env::var("TULIVOMBE_TIMES").map_or(1, |text| text.parse().expect("TULIVOMBE_TIMES is a number"))
}

/// xorshift64*.
#[derive(Clone)]
pub struct Rng(u64);

impl Rng {
    pub fn new(seed: u64) -> Rng {
        // The state must not be 0; nearby seeds are spread apart.
        let mixed = (seed ^ 0x9E37_79B9_7F4A_7C15).wrapping_mul(0xBF58_476D_1CE4_E5B9);
        Rng(mixed ^ mixed >> 31 | 1)
    }

    /// The seed of environment variable TULIVOMBE_SEED, or one of the clock, printed so that a failure can
    /// be had again.
    pub fn seeded(test: &str) -> Rng {
        let seed = match std::env::var("TULIVOMBE_SEED") {
            Ok(text) => text.trim().parse().expect("TULIVOMBE_SEED is a number"),
            Err(_) => {
                let now = std::time::SystemTime::now().duration_since(std::time::UNIX_EPOCH);
                now.expect("the clock stands after 1970").as_nanos() as u64 % 1_000_000_007
            }
        };
        println!("{test}: TULIVOMBE_SEED={seed}");
        Rng::new(seed)
    }

    pub fn draw(&mut self) -> u64 {
        self.0 ^= self.0 >> 12;
        self.0 ^= self.0 << 25;
        self.0 ^= self.0 >> 27;
        self.0.wrapping_mul(0x2545_F491_4F6C_DD1D)
    }

    pub fn word(&mut self) -> u32 {
        (self.draw() >> 32) as u32
    }

    pub fn byte(&mut self) -> u8 {
        (self.draw() >> 56) as u8
    }

    /// A number below n, which is not 0.
    pub fn below(&mut self, n: u32) -> u32 {
        ((u64::from(self.word()) * u64::from(n)) >> 32) as u32
    }

    /// A number from `low` to `high`.
    pub fn within(&mut self, low: u32, high: u32) -> u32 {
        low + self.below(high - low + 1)
    }

    /// True once in n.
    pub fn once_in(&mut self, n: u32) -> bool {
        self.below(n) == 0
    }

    pub fn pick<T: Copy>(&mut self, from: &[T]) -> T {
        from[self.below(from.len() as u32) as usize]
    }

    pub fn bytes(&mut self, len: usize) -> Vec<u8> {
        (0..len).map(|_| self.byte()).collect()
    }

    /// An order of the arena up to `largest`, small ones more often.
    pub fn arena_order(&mut self, largest: u32) -> u32 {
        let order = match self.below(20) {
            0 => 16,
            1 => self.within(11, 16),
            2..=6 => self.within(8, 10),
            _ => self.within(5, 7),
        };
        order.min(largest)
    }
}

/// An undamaged table of an arena of order m, with blocks of all orders: none of them locked, some or all.
pub fn sound_table(rng: &mut Rng, m: u32) -> Vec<u8> {
    let mut table = unlocked_table(rng, m);
    let share = rng.pick(&[0, 0, 1, 4]);
    let mut slot = 0;
    while slot < table.len() {
        let order = u32::from(table[slot]).max(4);
        let block = &mut table[slot..slot + (1 << (order - 4))];
        if block[0] != 0 && rng.below(4) < share {
            block.iter_mut().for_each(|entry| *entry |= LOCK);
        }
        slot += block.len();
    }
    table
}

/// The same, no block being locked.
pub fn unlocked_table(rng: &mut Rng, m: u32) -> Vec<u8> {
    let mut table = vec![0; 1 << (m - 4)];
    let density = rng.within(1, 4);
    settle(rng, &mut table, m, density);
    table
}

fn settle(rng: &mut Rng, part: &mut [u8], order: u32, density: u32) {
    match rng.below(6) {
        0 if density > 1 => part.fill(order as u8),
        1 if density < 4 => {}
        _ if order == 4 => {
            if rng.below(5) < density {
                part[0] = 4;
            }
        }
        _ => {
            let (low, high) = part.split_at_mut(part.len() / 2);
            settle(rng, low, order - 1, density);
            settle(rng, high, order - 1, density);
        }
    }
}

/// A table for an arena of order m: fresh, sound, sound with some entries changed, or any bytes.
pub fn any_table(rng: &mut Rng, m: u32) -> Vec<u8> {
    match rng.below(8) {
        0 => vec![0; 1 << (m - 4)],
        1..=4 => sound_table(rng, m),
        5 | 6 => {
            let mut table = sound_table(rng, m);
            for _ in 0..rng.within(1, 3) {
                let at = rng.below(table.len() as u32) as usize;
                table[at] = foreign_entry(rng, m, table[at]);
            }
            table
        }
        _ => (0..1 << (m - 4)).map(|_| foreign_entry(rng, m, 0)).collect(),
    }
}

/// What a stranger may write over an entry: any byte, an order or what is none, locked or not, or the entry itself with
/// its top bit turned.
pub fn foreign_entry(rng: &mut Rng, m: u32, entry: u8) -> u8 {
    match rng.below(6) {
        0 => rng.byte(),
        1 => rng.pick(&[0, 1, 3, 4, 5, 16, 17, 127]) | rng.pick(&[0, LOCK]),
        2 => entry ^ LOCK,
        _ => rng.within(4, m + 1) as u8 | rng.pick(&[0, 0, LOCK]),
    }
}

/// A pointer that is likely to mean something on this table, or not at all.
pub fn pointer(rng: &mut Rng, table: &[u8], known: &[u32]) -> u32 {
    let plain = match rng.below(12) {
        0 => return rng.word(),
        1 => edge(rng, table),
        2 if !known.is_empty() => return rng.pick(known),
        3 | 4 => BASE.wrapping_sub(24) + rng.below(16 * table.len() as u32 + 48),
        _ => near_a_block(rng, table),
    };
    if rng.below(10) < 3 {
        plain | MARK
    } else {
        plain
    }
}

/// An address at which the arena, a half of a slot beside it or all addresses begin or end: by its half of a slot a
/// marked pointer is sought a slot back or a slot on.
fn edge(rng: &mut Rng, table: &[u8]) -> u32 {
    let end = BASE + 16 * table.len() as u32;
    match rng.below(8) {
        0 | 1 => rng.pick(&[0, 7, 8, 15, 16, MARK - 1, MARK - 8, MARK - 9, MARK - 16]),
        _ => rng.pick(&[BASE, end]).wrapping_add_signed(rng.pick(&[-24, -17, -16, -9, -8, -1, 0, 7, 8, 15, 16])),
    }
}

fn near_a_block(rng: &mut Rng, table: &[u8]) -> u32 {
    let slots = table.len().max(1) as u32;
    let mut slot = rng.below(slots);
    for _ in 0..8 {
        if table.get(slot as usize).is_some_and(|&entry| entry != 0) {
            break;
        }
        slot = rng.below(slots);
    }
    let entry = table.get(slot as usize).copied().unwrap_or(4);
    let order = u32::from(entry & !LOCK).clamp(4, 16);
    let size = 1 << order;
    let start = BASE + (16 * slot / size * size);
    match rng.below(8) {
        0..=2 => start,
        3 => start + rng.below(size),
        4 => start + size - rng.within(1, 4),
        5 => start.wrapping_sub(rng.within(1, 10)),
        6 => start + size - 1 + rng.within(1, 10),
        _ => start + rng.below(size.min(40)),
    }
}

/// A byte count: small ones, powers of two and their neighbours, and any.
pub fn amount(rng: &mut Rng, m: u32) -> u32 {
    match rng.below(8) {
        0 => rng.pick(&[0, 1, 15, 16, 17, 31, 32, 33]),
        1 => rng.word(),
        2 | 3 => (1 << rng.within(0, m + 1)) + rng.below(3) - 1,
        4 => rng.below((1 << m) + 2),
        _ => rng.within(1, 40),
    }
}

/// A signed step, in two's complement.
pub fn distance(rng: &mut Rng, m: u32) -> u32 {
    let small = match rng.below(10) {
        0 => return rng.word(),
        1 => return rng.pick(&[0, 1 << 31, (1 << 31) - 1, u32::MAX, BASE, BASE.wrapping_neg()]),
        2 => 1 << rng.within(0, m),
        3 => rng.below(1 << m),
        4 => (1 << rng.within(4, m)) + rng.within(0, 9),
        // from a block's start to its last bytes, where a read or write of 2 or 4 bytes goes past the end
        5 | 6 => return (1 << rng.within(4, m.min(6))) - rng.within(1, 3),
        _ => rng.below(25),
    };
    if rng.once_in(2) {
        small.wrapping_neg()
    } else {
        small
    }
}

fn width(rng: &mut Rng) -> u8 {
    match rng.below(10) {
        0 => rng.pick(&[0, 3, 5, 8, 255]),
        1 => rng.byte(),
        _ => rng.pick(&[1, 2, 4]),
    }
}

fn stored(rng: &mut Rng, w: u8) -> u32 {
    match rng.below(5) {
        0 => rng.pick(&[0, 255, 256, 65_535, 65_536, u32::MAX]),
        1 => rng.word(),
        _ => rng.word() >> 32u32.saturating_sub(8 * u32::from(w)).min(31),
    }
}

/// How many bytes a table has from an address to its block's end, damaged or not; of an address that is sought elsewhere
/// or nowhere, those of some block.
fn left_at(rng: &mut Rng, table: &[u8], p: u32) -> u32 {
    let offset = p.wrapping_sub(BASE);
    match table.get(offset as usize / 16).map_or(0, |entry| entry & !LOCK) {
        order @ 4..=16 => (1 << order) - offset % (1 << order),
        _ => 1 << rng.within(4, 8),
    }
}

/// Rows and columns of a grid where so many bytes are left: it just fits or misses by one, or it has any number of
/// bytes, or none.
fn shape(rng: &mut Rng, left: u32) -> (u32, u32) {
    let wanted = (left + rng.pick(&[0, 0, 1])).saturating_sub(rng.pick(&[0, 0, 0, 1])).max(1);
    let exact = |rows: &u32| wanted.is_multiple_of(*rows) && wanted / rows <= 255;
    match rng.below(8) {
        0 => (rng.byte().into(), rng.byte().into()),
        1 => (rng.within(1, 4), rng.within(1, 8)),
        2 => rng.pick(&[(0, 3), (3, 0), (0, 0), (1, 1), (1, 255), (255, 1), (255, 255)]),
        _ => match (1..=255).filter(exact).collect::<Vec<u32>>()[..] {
            [] => {
                let rows = rng.within(1, 255);
                (rows, (wanted / rows).clamp(1, 255))
            }
            ref rows => {
                let rows = rng.pick(rows);
                (rows, wanted / rows)
            }
        },
    }
}

/// Rows, columns, row and column of a grid where so many bytes are left. The place is the first or the last, any other,
/// or one past the last row or column.
fn grid(rng: &mut Rng, left: u32) -> [u8; 4] {
    let (rows, columns) = shape(rng, left);
    let (last_row, last_column) = (rows.saturating_sub(1), columns.saturating_sub(1));
    let (row, column) = match rng.below(10) {
        0 => (rows, rng.below(columns + 1)),
        1 => (rng.below(rows + 1), columns),
        2 => (rng.byte().into(), rng.byte().into()),
        3 | 4 => (0, 0),
        5 | 6 => (last_row, last_column),
        _ => (rng.within(0, last_row), rng.within(0, last_column)),
    };
    [rows, columns, row, column].map(|number| number as u8)
}

/// A call on a heap with this table; `known` are values that earlier calls gave.
pub fn call(rng: &mut Rng, table: &[u8], m: u32, known: &[u32]) -> Call {
    match rng.below(14) {
        0..=2 => Call::Get { n: amount(rng, m) },
        3 => Call::Give { p: pointer(rng, table, known) },
        4 | 5 => Call::Step { p: pointer(rng, table, known), i: distance(rng, m) },
        6 => Call::Read { p: pointer(rng, table, known), w: width(rng) },
        7 => {
            let w = width(rng);
            Call::Write { p: pointer(rng, table, known), w, v: stored(rng, w) }
        }
        8 => Call::Left { p: pointer(rng, table, known) },
        9 => {
            let p = pointer(rng, table, known);
            let q = match rng.below(3) {
                0 => p.wrapping_add(distance(rng, m)),
                // so that the ranges overlap
                1 => p.wrapping_add_signed(rng.pick(&[-5, -2, -1, 1, 2, 5])),
                _ => pointer(rng, table, known),
            };
            Call::Copy { p, q, n: amount(rng, m) }
        }
        10 => Call::Fill { p: pointer(rng, table, known), v: rng.byte(), n: amount(rng, m) },
        11 => Call::Lock { p: pointer(rng, table, known) },
        12 => Call::Unlock { p: pointer(rng, table, known) },
        _ => {
            let p = pointer(rng, table, known);
            let left = left_at(rng, table, p);
            let [rows, columns, row, column] = grid(rng, left);
            Call::Grid { p, rows, columns, row, column }
        }
    }
}

/// A record whose registers are below `registers`; few of them make takes that work on few blocks.
pub fn record(rng: &mut Rng, m: u32, registers: u32) -> Record {
    let [d, a, b] = [(); 3].map(|()| rng.below(registers) as u8);
    record_of(rng, m, d, a, b)
}

/// Where repeats are counted, most of the time.
const COUNTER: u8 = 11;

/// A record with these registers; values that are no pointers often go where no pointer is kept. Repeats are rare: one
/// by a pointer is all that the rest of a run then does. `file` sets their index.
fn record_of(rng: &mut Rng, m: u32, d: u8, a: u8, b: u8) -> Record {
    if rng.once_in(30) {
        let d = if rng.once_in(8) { d } else { COUNTER };
        let (k, n) = (rng.word() as u16, repeats(rng));
        return rng.pick(&[Record::Again { d, k }, Record::Set { d, n }]);
    }
    match rng.below(13) {
        0..=2 => Record::Get { d, n: amount(rng, m) },
        3 => Record::Give { a },
        4 => Record::Step { d, a, i: distance(rng, m) },
        5 => Record::Read { d: if rng.once_in(3) { a } else { 15 }, a, w: width(rng) },
        6 => {
            let w = width(rng);
            Record::Write { a, w, v: stored(rng, w) }
        }
        7 => Record::Left { d: if rng.once_in(3) { d } else { 14 }, a },
        8 => Record::Copy { d: if rng.once_in(3) { d } else { 13 }, a, b, n: amount(rng, m) },
        9 => Record::Fill { d: if rng.once_in(3) { d } else { 12 }, a, v: rng.byte(), n: amount(rng, m) },
        10 => Record::Lock { a },
        11 => Record::Unlock { a },
        _ => grid_of(rng, m, d, a),
    }
}

/// A grid from the start of a block of any order, most of them small.
fn grid_of(rng: &mut Rng, m: u32, d: u8, a: u8) -> Record {
    let any = rng.within(4, m);
    let left = 1 << rng.pick(&[4, 5, any]);
    let [rows, columns, row, column] = grid(rng, left);
    Record::Grid { d, a, rows, columns, row, column }
}

/// How often to go back: mostly a few times.
fn repeats(rng: &mut Rng) -> u32 {
    match rng.below(12) {
        0 => rng.pick(&[u32::MAX, 4_095, 65_536]),
        1 => rng.within(5, 60),
        _ => rng.below(5),
    }
}

/// Records that set a counter and go back by it, to the record after the set. The again is given the distance that it
/// goes back by in place of an index.
fn repeated(rng: &mut Rng, m: u32, registers: u32) -> Vec<Record> {
    let counter = if rng.once_in(4) { rng.below(registers) as u8 } else { COUNTER };
    let length = rng.within(1, 5);
    let mut records = vec![Record::Set { d: counter, n: repeats(rng) }];
    records.extend((0..length).map(|_| record(rng, m, registers)));
    records.push(Record::Again { d: counter, k: length as u16 });
    records
}

/// Records that store four bytes and copy them a few bytes up or down, over themselves.
fn shift(rng: &mut Rng, m: u32, registers: u32) -> [Record; 3] {
    let mut drawn = || rng.below(registers) as u8;
    let (a, b) = (drawn(), drawn());
    let (to, from) = rng.pick(&[(a, b), (b, a)]);
    [
        Record::Write { a, w: 4, v: rng.word() },
        Record::Step { d: b, a, i: rng.within(1, 3) },
        Record::Copy { d: 13, a: to, b: from, n: amount(rng, m) },
    ]
}

/// Records that go to the last bytes of a new block, read and write past its end, and leave it by a few bytes; then
/// two with that marked pointer.
fn end_of_a_block(rng: &mut Rng, m: u32, registers: u32) -> [Record; 7] {
    let [a, b] = [(); 2].map(|()| rng.below(registers) as u8);
    [
        Record::Get { d: a, n: rng.within(1, 16) },
        Record::Step { d: b, a, i: rng.within(13, 15) },
        Record::Read { d: 15, a: b, w: 4 },
        Record::Write { a: b, w: 4, v: rng.word() },
        Record::Step { d: b, a: b, i: rng.within(3, 8) },
        record_of(rng, m, b, b, a),
        record_of(rng, m, b, b, a),
    ]
}

/// Records that give a new block back, and two that still use its pointer.
fn given_back(rng: &mut Rng, m: u32, registers: u32) -> [Record; 4] {
    let [a, b] = [(); 2].map(|()| rng.below(registers) as u8);
    [
        Record::Get { d: a, n: rng.within(1, 40) },
        Record::Give { a },
        record_of(rng, m, b, a, b),
        record_of(rng, m, b, a, b),
    ]
}

/// Records that leave a new block by a few bytes and give it back; then three with that marked pointer or the plain one.
fn dead_and_marked(rng: &mut Rng, m: u32, registers: u32) -> [Record; 6] {
    let [a, b, c] = [(); 3].map(|()| rng.below(registers) as u8);
    [
        Record::Get { d: a, n: rng.within(1, 16) },
        Record::Step { d: b, a, i: rng.pick(&[8u32.wrapping_neg(), 1u32.wrapping_neg(), 16, 23]) },
        Record::Give { a },
        record_of(rng, m, c, b, a),
        record_of(rng, m, c, a, b),
        record_of(rng, m, c, b, c),
    ]
}

/// Records that read a marked pointer out of a block, where a write left any number or one near the arena; then three
/// with it or the block's.
fn read_and_marked(rng: &mut Rng, m: u32, registers: u32) -> [Record; 6] {
    let [a, b, c] = [(); 3].map(|()| rng.below(registers) as u8);
    let (near, any) = (BASE - 24 + rng.below((1 << m) + 48), rng.word());
    [
        Record::Get { d: a, n: rng.within(4, 16) },
        Record::Write { a, w: 4, v: MARK | rng.pick(&[near, near, any]) },
        Record::Read { d: b, a, w: 4 },
        record_of(rng, m, c, b, a),
        record_of(rng, m, c, a, b),
        record_of(rng, m, c, b, c),
    ]
}

/// Records that lock a new block by an address of it, store into it and give it at its start and near its end; then
/// mostly its unlocking, and one more.
fn locked_block(rng: &mut Rng, m: u32, registers: u32) -> [Record; 8] {
    let [a, b] = [(); 2].map(|()| rng.below(registers) as u8);
    let mut either = || rng.pick(&[a, b]);
    let [locked, given, filled, to, from] = [(); 5].map(|()| either());
    [
        Record::Get { d: a, n: rng.within(1, 16) },
        Record::Step { d: b, a, i: rng.within(13, 15) },
        Record::Lock { a: locked },
        Record::Write { a: rng.pick(&[a, b]), w: 4, v: rng.word() },
        Record::Give { a: given },
        rng.pick(&[Record::Fill { d: 12, a: filled, v: 1, n: 0 }, Record::Copy { d: 13, a: to, b: from, n: 0 }]),
        rng.pick(&[Record::Unlock { a }, Record::Unlock { a }, Record::Lock { a }]),
        record_of(rng, m, b, a, b),
    ]
}

/// Records that ask for places of grids in a new block: from its start and from a few bytes on, just fitting or not. Then
/// one with the place, and one with the block.
fn places(rng: &mut Rng, m: u32, registers: u32) -> [Record; 6] {
    let [a, b, c] = [(); 3].map(|()| rng.below(registers) as u8);
    let (size, on) = (1 << rng.within(4, m.min(7)), rng.within(0, 5));
    let mut from = |d: u8, a: u8, left: u32| {
        let [rows, columns, row, column] = grid(rng, left);
        Record::Grid { d, a, rows, columns, row, column }
    };
    let (first, second) = (from(c, a, size), from(c, b, size - on));
    [
        Record::Get { d: a, n: size },
        Record::Step { d: b, a, i: on },
        first,
        second,
        record_of(rng, m, b, c, a),
        record_of(rng, m, b, a, c),
    ]
}

/// Gives each again the index of a record before it, and in one file of twelve now and then another. One that is the
/// first record has none before it, and mostly becomes a set.
fn aim(rng: &mut Rng, records: &mut [Record]) {
    let stray = rng.once_in(12);
    for (index, record) in (0..).zip(records) {
        let Record::Again { d, k } = *record else { continue };
        *record = match rng.below(8) {
            0..=2 if stray => Record::Again { d, k: index + rng.pick(&[0, 0, 1, 255, 256]) },
            _ if index == 0 => Record::Set { d, n: repeats(rng) },
            0 => Record::Again { d, k: 0 },
            1 => Record::Again { d, k: index - 1 },
            2 => Record::Again { d, k: rng.below(index.into()) as u16 },
            _ => Record::Again { d, k: index - k.clamp(1, index.min(5)) },
        };
    }
}

/// A file with up to `most` records, broken once in three.
pub fn file(rng: &mut Rng, m: u32, most: u32) -> Vec<u8> {
    let registers = rng.pick(&[3, 6, 16]);
    let wanted = rng.within(0, most) as usize;
    let mut records = Vec::new();
    while records.len() < wanted {
        match rng.below(40) {
            0 => records.extend(shift(rng, m, registers)),
            1 => records.extend(end_of_a_block(rng, m, registers)),
            2 => records.extend(locked_block(rng, m, registers)),
            3 => records.extend(given_back(rng, m, registers)),
            4 => records.extend(dead_and_marked(rng, m, registers)),
            5 => records.extend(read_and_marked(rng, m, registers)),
            6 => records.extend(repeated(rng, m, registers)),
            7 => records.extend(places(rng, m, registers)),
            _ => records.push(record(rng, m, registers)),
        }
    }
    records.truncate(wanted);
    aim(rng, &mut records);
    let mut file = vec![takes::VERSION, m as u8];
    records.into_iter().for_each(|record| append(&mut file, record));
    if rng.once_in(3) {
        break_file(rng, &mut file);
    }
    file
}

pub fn append(file: &mut Vec<u8>, record: Record) {
    let mut bytes = [0; 9];
    let count = takes::write(&mut bytes, record).expect("the registers are good");
    file.extend_from_slice(&bytes[..count]);
}

fn break_file(rng: &mut Rng, file: &mut Vec<u8>) {
    let len = file.len() as u32;
    match rng.below(8) {
        0 => file.truncate(rng.below(len) as usize),
        1 => file[0] = rng.byte(),
        2 => file[1] = rng.pick(&[0, 4, 5, 16, 17, 255]),
        3 => {
            let more = rng.within(1, 12) as usize;
            let tail = rng.bytes(more);
            file.extend_from_slice(&tail);
        }
        4 => {
            // to 8,192 bytes or just beyond
            let wanted = 8_190 + rng.below(5) as usize;
            while file.len() + 3 <= wanted {
                file.extend_from_slice(&[2, 2, rng.below(16) as u8]);
            }
            file.resize(wanted.max(file.len()), 0);
        }
        _ => {
            for _ in 0..rng.within(1, 2) {
                let at = rng.below(len) as usize;
                file[at] = if rng.once_in(2) { rng.byte() } else { rng.below(18) as u8 };
            }
        }
    }
}

/// A budget for a run that has so many steps at most: around them, around the most that any budget allows, or any.
pub fn budget(rng: &mut Rng, steps: u32) -> u32 {
    match rng.below(12) {
        0 => 0,
        1 | 2 => rng.within(1, 5),
        3 => rng.below(steps + 1),
        4 => steps.saturating_sub(1),
        5..=7 => steps,
        8 => steps + 1,
        9 => steps + rng.below(200),
        10 => rng.pick(&[4_095, 4_096, 4_097, u32::MAX]),
        _ => rng.word() >> rng.within(0, 31),
    }
}
