//! fresh, the eleven calls, check and show on lent buffers of any length and content.
//!
//! Each call is written once, over `KNOWN`: whether its caller already knows that the lengths fit and
//! that the table is undamaged. A direct call knows neither; a run knows both, since it made the heap.

use super::Refusal::{self, *};

/// The arena's first address.
pub const BASE: u32 = 65_536;
/// The top bit, which marks an out-of-bounds pointer.
pub const MARK: u32 = 1 << 31;
/// The top bit of a table entry, which locks the block. The other bits are its order.
pub const LOCK: u8 = 1 << 7;
/// How far from its block a marked pointer may lie.
pub const REACH: usize = 8;
const SLOT: usize = 16;
const SLOT_ORDER: u32 = 4;

pub type Outcome = Result<u32, Refusal>;

/// A live block, by its offset in the arena.
#[derive(Clone, Copy)]
struct Block {
    start: usize,
    order: u32,
}

impl Block {
    /// The offset after the last byte.
    fn end(self) -> usize {
        self.start + (1 << self.order)
    }
}

/// Whether the arena's length is a power of two from 32 to 65,536, and the table's a sixteenth of it.
pub fn lengths_fit(arena: &[u8], table: &[u8]) -> bool {
    let len = arena.len();
    len.is_power_of_two() && (32..=65_536).contains(&len) && table.len() == len / SLOT
}

fn lengths<const KNOWN: bool>(arena: &[u8], table: &[u8]) -> Result<u32, Refusal> {
    if KNOWN || lengths_fit(arena, table) {
        Ok(arena.len().trailing_zeros())
    } else {
        Err(Lengths)
    }
}

fn intact<const KNOWN: bool>(table: &[u8], m: u32) -> Result<(), Refusal> {
    if KNOWN || !damaged(table, m) {
        Ok(())
    } else {
        Err(Damaged)
    }
}

/// The order that an entry says, with or without the lock.
fn order_of(entry: u8) -> u32 {
    u32::from(entry & !LOCK)
}

/// Whether some entry is no order, or differs from another slot of its block in order or lock. Each slot is
/// looked at once: a slot that is reached inside its own aligned range was not covered from that range's start.
pub fn damaged(table: &[u8], m: u32) -> bool {
    let mut slot = 0;
    while slot < table.len() {
        let entry = table[slot];
        if entry == 0 {
            slot += 1;
            continue;
        }
        let order = order_of(entry);
        if !(SLOT_ORDER..=m).contains(&order) {
            return true;
        }
        let slots = 1 << (order - SLOT_ORDER);
        if slot & (slots - 1) != 0 || table[slot + 1..slot + slots].iter().any(|&other| other != entry) {
            return true;
        }
        slot += slots;
    }
    false
}

/// The live block that holds a plain address. The table has an entry for each slot of the arena and for no other.
fn block_at(table: &[u8], address: u32) -> Result<Block, Refusal> {
    let offset = address.wrapping_sub(BASE) as usize;
    match table.get(offset / SLOT) {
        None => Err(Outside),
        Some(0) => Err(FreeSlot),
        Some(&entry) => {
            let order = order_of(entry);
            Ok(Block { start: offset >> order << order, order })
        }
    }
}

/// The live block that a pointer, plain or marked, belongs to.
fn referent(table: &[u8], p: u32) -> Result<Block, Refusal> {
    let address = p & !MARK;
    if p == address {
        block_at(table, address)
    } else if address % 16 < 8 {
        block_at(table, address.checked_sub(16).ok_or(Outside)?)
    } else {
        block_at(table, address + 16)
    }
}

/// The referent of a pointer that must be plain. That a marked one has none is told before that it is marked.
fn plain_referent(table: &[u8], p: u32) -> Result<Block, Refusal> {
    let block = referent(table, p)?;
    if p & MARK == 0 {
        Ok(block)
    } else {
        Err(Marked)
    }
}

/// Where a plain pointer with a referent points to, and the bytes from there to the referent's end.
fn place(table: &[u8], p: u32) -> Result<(usize, usize), Refusal> {
    let block = plain_referent(table, p)?;
    let at = (p - BASE) as usize;
    Ok((at, block.end() - at))
}

/// Judged last, so p is plain and has a referent, and its slot the entry of that block.
fn unlocked(table: &[u8], p: u32) -> Result<(), Refusal> {
    if table[(p - BASE) as usize / SLOT] & LOCK == 0 {
        Ok(())
    } else {
        Err(Locked)
    }
}

/// The places of a copy's two pointers: one outside the arena is told before one at a free slot, and that before a marked
/// one, whichever it is.
fn places(table: &[u8], p: u32, q: u32) -> Result<[(usize, usize); 2], Refusal> {
    match (place(table, p), place(table, q)) {
        (Ok(to), Ok(from)) => Ok([to, from]),
        (Err(Outside), _) | (_, Err(Outside)) => Err(Outside),
        (Err(FreeSlot), _) | (_, Err(FreeSlot)) => Err(FreeSlot),
        (Err(refusal), _) | (_, Err(refusal)) => Err(refusal),
    }
}

/// The first slot of the smallest maximal free range of at least `order`, of equals the lowest.
///
/// In a run of free slots the maximal ranges are, from the left, each the largest that is aligned
/// where it starts and ends within the run.
fn search(table: &[u8], order: u32) -> Option<usize> {
    let wanted = 1usize << (order - SLOT_ORDER);
    let mut best: Option<(usize, usize)> = None;
    let mut slot = 0;
    while slot < table.len() {
        if table[slot] != 0 {
            slot += 1 << (order_of(table[slot]) - SLOT_ORDER);
            continue;
        }
        let run = table[slot..].iter().take_while(|&&e| e == 0).count();
        let end = slot + run;
        while slot < end {
            let fits = 1usize << (end - slot).ilog2();
            let size = if slot == 0 { fits } else { fits.min(1 << slot.trailing_zeros()) };
            if size == wanted {
                return Some(slot);
            }
            if size > wanted && best.is_none_or(|(least, _)| size < least) {
                best = Some((size, slot));
            }
            slot += size;
        }
    }
    best.map(|(_, slot)| slot)
}

pub fn fresh(arena: &mut [u8], table: &mut [u8]) -> Outcome {
    lengths::<false>(arena, table)?;
    arena.fill(0);
    table.fill(0);
    Ok(0)
}

pub fn get<const KNOWN: bool>(arena: &mut [u8], table: &mut [u8], n: u32) -> Outcome {
    let m = lengths::<KNOWN>(arena, table)?;
    let n = n as usize;
    if n == 0 || n > arena.len() {
        return Err(GetSize);
    }
    intact::<KNOWN>(table, m)?;
    let order = n.next_power_of_two().trailing_zeros().max(SLOT_ORDER);
    let slot = search(table, order).ok_or(NoFreeRange)?;
    table[slot..slot + (1 << (order - SLOT_ORDER))].fill(order as u8);
    let start = slot * SLOT;
    arena[start..start + (1 << order)].fill(0);
    Ok(BASE + start as u32)
}

pub fn give<const KNOWN: bool>(arena: &[u8], table: &mut [u8], p: u32) -> Outcome {
    let m = lengths::<KNOWN>(arena, table)?;
    intact::<KNOWN>(table, m)?;
    let block = plain_referent(table, p)?;
    if (p - BASE) as usize != block.start {
        return Err(NotTheStart);
    }
    unlocked(table, p)?;
    table[block.start / SLOT..block.end() / SLOT].fill(0);
    Ok(0)
}

pub fn step<const KNOWN: bool>(arena: &[u8], table: &[u8], p: u32, i: u32) -> Outcome {
    let m = lengths::<KNOWN>(arena, table)?;
    intact::<KNOWN>(table, m)?;
    let block = referent(table, p)?;
    let address = i64::from(p & !MARK) + i64::from(i as i32);
    let start = i64::from(BASE) + block.start as i64;
    let end = i64::from(BASE) + block.end() as i64;
    let reach = REACH as i64;
    if (start..end).contains(&address) {
        Ok(address as u32)
    } else if (start - reach..end + reach).contains(&address) {
        Ok(address as u32 | MARK)
    } else {
        Err(BeyondReach)
    }
}

fn width(w: u8) -> Result<usize, Refusal> {
    match w {
        1 | 2 | 4 => Ok(usize::from(w)),
        _ => Err(Width),
    }
}

pub fn read<const KNOWN: bool>(arena: &[u8], table: &[u8], p: u32, w: u8) -> Outcome {
    let m = lengths::<KNOWN>(arena, table)?;
    let w = width(w)?;
    intact::<KNOWN>(table, m)?;
    let (at, left) = place(table, p)?;
    if w > left {
        return Err(PastTheEnd);
    }
    Ok(match arena[at..at + w] {
        [a] => u32::from(a),
        [a, b] => u32::from(u16::from_be_bytes([a, b])),
        [a, b, c, d] => u32::from_be_bytes([a, b, c, d]),
        _ => unreachable!("the width was judged"),
    })
}

pub fn write<const KNOWN: bool>(arena: &mut [u8], table: &[u8], p: u32, w: u8, v: u32) -> Outcome {
    let m = lengths::<KNOWN>(arena, table)?;
    let w = width(w)?;
    if u64::from(v) >> (8 * w) != 0 {
        return Err(ValueTooWide);
    }
    intact::<KNOWN>(table, m)?;
    let (at, left) = place(table, p)?;
    if w > left {
        return Err(PastTheEnd);
    }
    unlocked(table, p)?;
    let place = &mut arena[at..at + w];
    match w {
        1 => place[0] = v as u8,
        2 => place.copy_from_slice(&(v as u16).to_be_bytes()),
        _ => place.copy_from_slice(&v.to_be_bytes()),
    }
    Ok(0)
}

pub fn left<const KNOWN: bool>(arena: &[u8], table: &[u8], p: u32) -> Outcome {
    let m = lengths::<KNOWN>(arena, table)?;
    intact::<KNOWN>(table, m)?;
    let (_, left) = place(table, p)?;
    Ok(left as u32)
}

pub fn copy<const KNOWN: bool>(arena: &mut [u8], table: &[u8], p: u32, q: u32, n: u32) -> Outcome {
    let m = lengths::<KNOWN>(arena, table)?;
    intact::<KNOWN>(table, m)?;
    let [(to, room), (from, held)] = places(table, p, q)?;
    unlocked(table, p)?;
    let count = room.min(held).min(n as usize);
    arena.copy_within(from..from + count, to);
    Ok(count as u32)
}

pub fn fill<const KNOWN: bool>(arena: &mut [u8], table: &[u8], p: u32, v: u8, n: u32) -> Outcome {
    let m = lengths::<KNOWN>(arena, table)?;
    intact::<KNOWN>(table, m)?;
    let (at, left) = place(table, p)?;
    unlocked(table, p)?;
    let count = left.min(n as usize);
    arena[at..at + count].fill(v);
    Ok(count as u32)
}

pub fn lock<const KNOWN: bool>(arena: &[u8], table: &mut [u8], p: u32) -> Outcome {
    set_lock::<KNOWN>(arena, table, p, LOCK)
}

pub fn unlock<const KNOWN: bool>(arena: &[u8], table: &mut [u8], p: u32) -> Outcome {
    set_lock::<KNOWN>(arena, table, p, 0)
}

/// Gives every slot of p's block its order again, with the bit or without it.
fn set_lock<const KNOWN: bool>(arena: &[u8], table: &mut [u8], p: u32, bit: u8) -> Outcome {
    let m = lengths::<KNOWN>(arena, table)?;
    intact::<KNOWN>(table, m)?;
    let block = plain_referent(table, p)?;
    table[block.start / SLOT..block.end() / SLOT].fill(block.order as u8 | bit);
    Ok(0)
}

/// The address of a place in a grid that starts at p. The grid must lie in p's block whole, whatever the place.
pub fn grid<const KNOWN: bool>(
    arena: &[u8],
    table: &[u8],
    p: u32,
    rows: u8,
    columns: u8,
    row: u8,
    column: u8,
) -> Outcome {
    let m = lengths::<KNOWN>(arena, table)?;
    if row >= rows || column >= columns {
        return Err(NotInGrid);
    }
    intact::<KNOWN>(table, m)?;
    let (_, left) = place(table, p)?;
    if usize::from(rows) * usize::from(columns) > left {
        return Err(PastTheEnd);
    }
    Ok(p + u32::from(row) * u32::from(columns) + u32::from(column))
}

/// 1 if the sum of h and i lies in h's block, by the xor of both, shifted right by the order.
pub fn check(arena: &[u8], table: &[u8], h: u32, i: u32) -> Outcome {
    let m = lengths::<false>(arena, table)?;
    intact::<false>(table, m)?;
    let block = plain_referent(table, h)?;
    Ok(u32::from((h ^ h.wrapping_add(i)) >> block.order == 0))
}

/// The part of the arena from p to its referent's end, empty if refused.
pub fn show<'a>(arena: &'a [u8], table: &[u8], p: u32) -> &'a [u8] {
    match left::<false>(arena, table, p) {
        Ok(left) => {
            let at = (p - BASE) as usize;
            &arena[at..at + left as usize]
        }
        Err(_) => &arena[..0],
    }
}
