//! The map as slots of a processor's memory, as KVM has them.

use crate::{Area, Kind, Map, Range};

const PAGE: u64 = 4096;
const MOST_SLOTS: usize = 480; // fewer than any KVM has

/// Whole pages behind which the monitor's own bytes lie: the processor fetches and reads them there without an exit,
/// and writes them unless they are read-only. Each access outside all slots exits.
#[derive(Clone, Copy, Debug, PartialEq, Eq, Hash)]
pub struct Slot {
    /// The first address.
    pub addr: u64,
    /// How many bytes, whole pages.
    pub bytes: u64,
    /// Of the first byte, in the guest's memory or in the ROM.
    pub offset: u64,
    /// Whether they are those of the ROM.
    pub is_rom: bool,
    /// Whether a write exits.
    pub is_read_only: bool,
}

impl Slot {
    fn end(&self) -> u64 {
        self.addr + self.bytes
    }

    /// From one address to another, with bytes of the same kind.
    fn part(&self, addr: u64, end: u64) -> Slot {
        Slot { addr, bytes: end.saturating_sub(addr), offset: self.offset + addr - self.addr, ..*self }
    }

    /// Whether bytes of one kind stand where those of another would if it went on.
    fn is_of(&self, other: &Slot) -> bool {
        let kind = |slot: &Slot| (slot.is_rom, slot.is_read_only, slot.offset.wrapping_sub(slot.addr));
        kind(self) == kind(other)
    }

    fn pages(&self) -> Slot {
        self.part((self.addr + PAGE - 1) / PAGE * PAGE, self.end() / PAGE * PAGE)
    }
}

/// What a processor has to change, so that its slots are those of a map.
#[derive(Clone, Copy, Debug, PartialEq, Eq, Hash)]
pub enum SlotChange {
    /// The slot is taken away from its number.
    Remove {
        /// Its number.
        number: u32,
        /// What it was.
        slot: Slot,
    },
    /// The slot is added at a number that is free.
    Add {
        /// Its number.
        number: u32,
        /// What it is.
        slot: Slot,
    },
}

impl SlotChange {
    /// The number and the slot as KVM takes them: one that is taken away has no bytes.
    pub fn region(&self) -> (u32, Slot) {
        match *self {
            SlotChange::Remove { number, slot } => (number, Slot { bytes: 0, ..slot }),
            SlotChange::Add { number, slot } => (number, slot),
        }
    }
}

/// What a range is as slots: none where a fetch and a read find different things, nor of SMRAM, a card or nobody, nor
/// past the memory; read-only where writes alone land elsewhere. The ROM stands in a long range again and again.
fn of_range(range: &Range, mib: u32, rom_bytes: u64) -> Vec<Slot> {
    let [fetch, read, write] = [Kind::Fetch, Kind::Read, Kind::Write].map(|kind| range.area(kind, false));
    let (lo, end) = (u64::from(range.lo), u64::from(range.hi) + 1);
    if fetch == Area::Rom && read == Area::Rom && rom_bytes > 0 {
        let whole =
            |copy| Slot { addr: copy * rom_bytes, bytes: rom_bytes, offset: 0, is_rom: true, is_read_only: true };
        let copies = (lo / rom_bytes..=(end - 1) / rom_bytes).map(whole);
        return copies.map(|slot| slot.part(lo.max(slot.addr), end.min(slot.end()))).collect();
    }
    let memory_end = end.min(u64::from(mib) << 20);
    if !fetch.is_memory() || !read.is_memory() || lo >= memory_end {
        return Vec::new();
    }
    vec![Slot { addr: lo, bytes: memory_end - lo, offset: lo, is_rom: false, is_read_only: !write.is_memory() }]
}

/// The slots of a map in rising order, each as long as can be.
fn of_map(map: &Map, mib: u32, rom_bytes: u64) -> Vec<Slot> {
    let mut made: Vec<Slot> = Vec::new();
    for next in map.ranges.iter().flat_map(|range| of_range(range, mib, rom_bytes)) {
        match made.last_mut() {
            Some(last) if last.end() == next.addr && last.is_of(&next) => last.bytes += next.bytes,
            _ => made.push(next),
        }
    }
    made.iter().map(Slot::pages).filter(|slot| slot.bytes > 0).take(MOST_SLOTS).collect()
}

/// The slots that a processor has, by their numbers.
///
/// ```
/// use board_440fx::{Board, SlotChange, Slots};
///
/// let board = Board::builder().memory_mib(8).rom(&[0; 65536]).open()?;
/// let changes = Slots::default().follow(&board.map()?, 8, 512 << 10);
/// let added = changes.iter().filter_map(|change| match change {
///     SlotChange::Add { slot, .. } => Some((slot.addr, slot.bytes, slot.is_rom)),
///     SlotChange::Remove { .. } => None,
/// });
/// let memory = [(0, 0xA_0000, false), (0x10_0000, 0x70_0000, false)];
/// let rom = [(0xF_0000, 0x1_0000, true), (0xFFFF_0000, 0x1_0000, true)];
/// assert_eq!(added.collect::<Vec<_>>(), [memory[0], rom[0], memory[1], rom[1]]);
/// # Ok::<(), board_440fx::Error>(())
/// ```
#[derive(Clone, Debug, Default, PartialEq, Eq)]
pub struct Slots {
    slots: Vec<Option<Slot>>,
}

impl Slots {
    /// Makes the slots those of a map, and tells what a processor has to change for it, in this order. No two slots
    /// overlap at any moment. A slot that is still right stays untouched, also where more memory comes to stand beside
    /// it, which then is a slot of its own. Where the numbers could run out, past 480, all are taken away first.
    ///
    /// `mib` is how many MiB the guest's memory has, `rom_bytes` how many bytes the monitor's copy of the ROM has, in
    /// whole pages. With copies of the ROM one after the other, 512 KiB in all, each range of it is one slot.
    pub fn follow(&mut self, map: &Map, mib: u32, rom_bytes: u32) -> Vec<SlotChange> {
        let wanted = of_map(map, mib, rom_bytes.into());
        let mut changes = self.take(&wanted);
        if 2 * self.slots.iter().flatten().count() + wanted.len() > MOST_SLOTS {
            changes.extend(self.take(&[]));
        }
        for slot in &wanted {
            self.fill(slot, &mut changes);
        }
        changes
    }

    /// The slots with their numbers.
    pub fn iter(&self) -> impl Iterator<Item = (u32, Slot)> + '_ {
        (0..).zip(&self.slots).filter_map(|(number, slot)| Some((number, (*slot)?)))
    }

    /// Takes away those that do not lie in one that is wanted, with its bytes.
    fn take(&mut self, wanted: &[Slot]) -> Vec<SlotChange> {
        let stays = |slot: &Slot| {
            let is_in = |whole: &&Slot| whole.addr <= slot.addr && slot.end() <= whole.end();
            wanted.iter().find(is_in).map_or(false, |whole| whole.is_of(slot))
        };
        let places = (0..).zip(&mut self.slots);
        places
            .filter_map(|(number, place)| {
                let slot = place.filter(|slot| !stays(slot))?;
                *place = None;
                Some(SlotChange::Remove { number, slot })
            })
            .collect()
    }

    /// Adds slots where a wanted one has none yet.
    fn fill(&mut self, wanted: &Slot, changes: &mut Vec<SlotChange>) {
        let mut at = wanted.addr;
        while at < wanted.end() {
            let later = self.slots.iter().flatten().filter(|slot| slot.addr >= at && slot.addr < wanted.end());
            let next = later.min_by_key(|slot| slot.addr).copied();
            let end = next.map_or(wanted.end(), |slot| slot.addr);
            if at < end {
                changes.push(self.add(wanted.part(at, end)));
            }
            at = next.map_or(end, |slot| slot.end());
        }
    }

    /// Adds a slot at the first number that is free.
    fn add(&mut self, slot: Slot) -> SlotChange {
        let mut places = (0..).zip(&mut self.slots);
        let number = match places.find(|(_, place)| place.is_none()) {
            Some((number, place)) => {
                *place = Some(slot);
                number
            }
            None => {
                self.slots.push(Some(slot));
                self.slots.len() as u32 - 1
            }
        };
        SlotChange::Add { number, slot }
    }
}
