//! The memory map of a board.

use crate::raw;
use crate::{Error, Kind};
use std::fmt;

/// What an address is to a kind of access.
///
/// ```
/// use board_440fx::Area;
///
/// assert_eq!(Area::Card { device: 2, base: 0 }.to_string(), "card:2.0");
/// assert!(Area::Shadow { row: 0 }.is_memory());
/// ```
#[derive(Clone, Copy, Debug, PartialEq, Eq, Hash)]
#[non_exhaustive]
pub enum Area {
    /// Main memory.
    Dram {
        /// Its row.
        row: u8,
    },
    /// Main memory behind an open PAM window.
    Shadow {
        /// Its row.
        row: u8,
    },
    /// Main memory at A0000h to BFFFFh.
    Smram,
    /// The BIOS ROM.
    Rom,
    /// A base of a card: 0 to 5, 6 for its expansion ROM, 7 for the window of a VGA card.
    Card {
        /// The card's device number.
        device: u8,
        /// Its base.
        base: u8,
    },
    /// Nobody.
    Abort,
}

impl Area {
    pub(crate) fn of(target: u8, unit: u8, base: u8) -> Option<Area> {
        match target {
            raw::DRAM => Some(Area::Dram { row: unit }),
            raw::SHADOW => Some(Area::Shadow { row: unit }),
            raw::SMRAM => Some(Area::Smram),
            raw::ROM => Some(Area::Rom),
            raw::CARD => Some(Area::Card { device: unit, base }),
            raw::ABORT => Some(Area::Abort),
            _ => None,
        }
    }

    /// Whether it is main memory at its own address, which a monitor may give to the processor.
    pub fn is_memory(self) -> bool {
        matches!(self, Area::Dram { .. } | Area::Shadow { .. })
    }
}

/// As in a map.
impl fmt::Display for Area {
    fn fmt(&self, f: &mut fmt::Formatter<'_>) -> fmt::Result {
        match self {
            Area::Dram { row } => write!(f, "dram:{row}"),
            Area::Shadow { row } => write!(f, "shadow:{row}"),
            Area::Smram => f.write_str("smram"),
            Area::Rom => f.write_str("rom"),
            Area::Card { device, base } => write!(f, "card:{device}.{base}"),
            Area::Abort => f.write_str("abort"),
        }
    }
}

/// The areas of a fetch, a read and a write.
#[derive(Clone, Copy, Debug, PartialEq, Eq, Hash)]
struct Areas {
    fetch: Area,
    read: Area,
    write: Area,
}

impl Areas {
    fn of(records: &[raw::Area]) -> Option<Areas> {
        let area = |record: &raw::Area| Area::of(record.target, record.unit, record.base);
        match records {
            [fetch, read, write] => Some(Areas { fetch: area(fetch)?, read: area(read)?, write: area(write)? }),
            _ => None,
        }
    }

    fn area(&self, kind: Kind) -> Area {
        match kind {
            Kind::Fetch => self.fetch,
            Kind::Read => self.read,
            Kind::Write => self.write,
        }
    }
}

impl fmt::Display for Areas {
    fn fmt(&self, f: &mut fmt::Formatter<'_>) -> fmt::Result {
        write!(f, "{} {} {}", self.fetch, self.read, self.write)
    }
}

/// Whether bytes of memory are all there, of a board that has so many MiB.
///
/// ```
/// assert!(board_440fx::is_installed(8, 0x7F_FFFC, 4));
/// assert!(!board_440fx::is_installed(8, 0x7F_FFFE, 4));
/// ```
pub fn is_installed(mib: u32, addr: u64, bytes: u64) -> bool {
    let end = u64::from(mib) << 20;
    addr <= end && bytes <= end - addr
}

/// A range of addresses in which each kind of access has one area.
///
/// ```
/// use board_440fx::{Area, Board, Kind};
///
/// let board = Board::builder().memory_mib(8).rom(&[0; 65536]).open()?;
/// let first = board.ranges()?.next();
/// assert_eq!(first.map(|range| (range.lo, range.hi)), Some((0, 0x9FFFF)));
/// assert_eq!(first.map(|range| range.area(Kind::Read, false)), Some(Area::Dram { row: 0 }));
/// # Ok::<(), board_440fx::Error>(())
/// ```
#[derive(Clone, Copy, Debug, PartialEq, Eq, Hash)]
pub struct Range {
    /// The first address.
    pub lo: u32,
    /// The last address.
    pub hi: u32,
    outside: Areas,
    in_smm: Areas,
}

impl Range {
    fn of(record: &raw::Range) -> Option<Range> {
        let (outside, in_smm) = record.area.split_at(3);
        Some(Range { lo: record.lo, hi: record.hi, outside: Areas::of(outside)?, in_smm: Areas::of(in_smm)? })
    }

    /// The range as far as there is memory, of which a board has so many MiB ([`Map::mib`]): a row may be decoded further,
    /// where reads give ones and writes are lost. None where all of it lies past that.
    ///
    /// ```
    /// let mut board = board_440fx::Board::builder().memory_mib(4).rom(&[0; 65536]).open()?;
    /// board.out_u32(0xCF8, 0x8000_0064)?;
    /// board.out_u8(0xCFF, 1)?; // the last row ends at 8 MiB
    /// let map = board.map()?;
    /// let row = map.ranges.iter().find(|range| range.lo == 0x10_0000).expect("from 1 MiB on");
    /// assert_eq!(row.hi, 0x7F_FFFF);
    /// assert_eq!(row.clip(map.mib).map(|range| range.hi), Some(0x3F_FFFF));
    /// # Ok::<(), board_440fx::Error>(())
    /// ```
    pub fn clip(&self, mib: u32) -> Option<Range> {
        let end = u64::from(mib) << 20;
        (u64::from(self.lo) < end).then(|| Range { hi: u64::from(self.hi).min(end - 1) as u32, ..*self })
    }

    /// What a kind of access reaches here, outside system management mode or in it.
    pub fn area(&self, kind: Kind, smm: bool) -> Area {
        if smm { self.in_smm } else { self.outside }.area(kind)
    }
}

/// As a line of a map, without its line feed.
impl fmt::Display for Range {
    fn fmt(&self, f: &mut fmt::Formatter<'_>) -> fmt::Result {
        write!(f, "{:08X} {:08X} {} {}", self.lo, self.hi, self.outside, self.in_smm)
    }
}

/// Addresses that a change of the map changed.
///
/// ```
/// use board_440fx::Board;
///
/// let mut board = Board::builder().rom(&[0; 65536]).open()?;
/// board.out_u32(0xCF8, 0x8000_0058)?;
/// board.out_u8(0xCFD, 0x30)?;
/// let windows = board.map()?.windows;
/// assert!(windows.iter().any(|window| window.lo <= 0xF0000 && window.hi >= 0xFFFFF));
/// # Ok::<(), board_440fx::Error>(())
/// ```
#[derive(Clone, Copy, Debug, PartialEq, Eq, Hash)]
pub struct Window {
    /// The first address.
    pub lo: u32,
    /// The last address.
    pub hi: u32,
}

/// The memory map.
///
/// ```
/// use board_440fx::Board;
///
/// let map = Board::builder().memory_mib(8).rom(&[0; 65536]).open()?.map()?;
/// assert_eq!(map.version, 0);
/// assert_eq!(map.ranges.len(), 6);
/// assert_eq!(map.ranges.last().map(|range| range.hi), Some(u32::MAX));
/// # Ok::<(), board_440fx::Error>(())
/// ```
#[derive(Clone, Debug, PartialEq, Eq)]
pub struct Map {
    /// How many map writes came before it.
    pub version: u32,
    /// How many MiB of memory there are: a row may be decoded further, without bytes.
    pub mib: u32,
    /// The ranges in rising order; they cover all addresses.
    pub ranges: Vec<Range>,
    /// What its last change changed: an address beside these has the areas that it had before.
    pub windows: Vec<Window>,
}

impl Map {
    pub(crate) fn of(map: &raw::Map, ranges: &[raw::Range], windows: &[raw::Window]) -> Result<Map, Error> {
        let count = |number: u64| usize::try_from(number).map_err(|_| Error::NoRoom);
        let ranges = ranges.get(..count(map.ranges)?).ok_or(Error::NoRoom)?;
        let windows = windows.get(..count(map.windows)?).ok_or(Error::NoRoom)?;
        Ok(Map {
            version: map.version,
            mib: map.mib,
            ranges: ranges.iter().map(Range::of).collect::<Option<_>>().ok_or(Error::NoReply)?,
            windows: windows.iter().map(|window| Window { lo: window.lo, hi: window.hi }).collect(),
        })
    }
}

/// As `board map` writes it: each range with its line feed.
impl fmt::Display for Map {
    fn fmt(&self, f: &mut fmt::Formatter<'_>) -> fmt::Result {
        self.ranges.iter().try_for_each(|range| writeln!(f, "{range}"))
    }
}

/// The ranges of a map, one after another, as they were when it was asked.
///
/// ```
/// let board = board_440fx::Board::builder().rom(&[0; 65536]).open()?;
/// for range in board.ranges()? {
///     println!("{range}");
/// }
/// # Ok::<(), board_440fx::Error>(())
/// ```
#[derive(Clone, Debug)]
pub struct Ranges(std::vec::IntoIter<Range>);

impl Ranges {
    pub(crate) fn of(map: Map) -> Ranges {
        Ranges(map.ranges.into_iter())
    }
}

impl Iterator for Ranges {
    type Item = Range;

    fn next(&mut self) -> Option<Range> {
        self.0.next()
    }

    fn size_hint(&self) -> (usize, Option<usize>) {
        self.0.size_hint()
    }
}

impl DoubleEndedIterator for Ranges {
    fn next_back(&mut self) -> Option<Range> {
        self.0.next_back()
    }
}

impl ExactSizeIterator for Ranges {}
