//! Heaps, and the tables that the damage scan is measured on.

use tulivombe_tests::call::Call;
use tulivombe_tests::plain::heap::BASE;
use tulivombe_tests::random::{unlocked_table, Rng};
use tulivombe_tests::subject::Plain;

/// The buffers of an arena.
pub struct Heap {
    pub arena: Vec<u8>,
    pub table: Vec<u8>,
}

impl Heap {
    pub fn fresh(m: u32) -> Heap {
        Heap::with(vec![0; 1 << (m - 4)])
    }

    pub fn with(table: Vec<u8>) -> Heap {
        Heap { arena: vec![0; 16 * table.len()], table }
    }

    /// A fresh heap on which plain Rust made some calls.
    pub fn after(m: u32, calls: &[Call]) -> Heap {
        let mut heap = Heap::fresh(m);
        for call in calls {
            assert_eq!(call.make::<Plain>(&mut heap.arena, &mut heap.table).number, 0);
        }
        heap
    }

    /// The pointer to the last slot that a block has.
    pub fn last_pointer(&self) -> u32 {
        let slot = self.table.iter().rposition(|&entry| entry != 0).expect("some block is live");
        BASE + 16 * slot as u32
    }
}

/// What blocks a table has.
pub struct ScanKind {
    pub name: &'static str,
    /// The heap at order m, none where a block would be too large.
    pub heap: fn(u32) -> Option<Heap>,
}

pub const SCANNED: [ScanKind; 8] = [
    ScanKind { name: "all free", heap: |m| Some(Heap::fresh(m)) },
    ScanKind { name: "16 bytes", heap: |m| blocks_of(4, m) },
    ScanKind { name: "32 bytes", heap: |m| blocks_of(5, m) },
    ScanKind { name: "64 bytes", heap: |m| blocks_of(6, m) },
    ScanKind { name: "128 bytes", heap: |m| blocks_of(7, m) },
    ScanKind { name: "one block", heap: |m| blocks_of(m, m) },
    ScanKind { name: "16 to 128 bytes", heap: |m| Some(small_blocks(m)) },
    ScanKind { name: "all orders", heap: |m| Some(settled(m)) },
];

/// An arena full of blocks of one order.
fn blocks_of(order: u32, m: u32) -> Option<Heap> {
    (order <= m).then(|| Heap::with(vec![order as u8; 1 << (m - 4)]))
}

/// An undamaged, well filled heap with blocks of all orders. None is locked, which would refuse a call that is timed.
pub fn settled(m: u32) -> Heap {
    let rng = &mut Rng::new(u64::from(m));
    with_some_block(|| unlocked_table(rng, m))
}

/// Blocks of orders 4 to 7 and free slots, at random: each part of 128 bytes has a table of its own.
fn small_blocks(m: u32) -> Heap {
    let rng = &mut Rng::new(u64::from(m));
    let parts = 1 << (m.max(7) - 7);
    with_some_block(|| (0..parts).flat_map(|_| unlocked_table(rng, m.min(7))).collect())
}

fn with_some_block(mut draw: impl FnMut() -> Vec<u8>) -> Heap {
    loop {
        let table = draw();
        if table.iter().any(|&entry| entry != 0) {
            return Heap::with(table);
        }
    }
}
