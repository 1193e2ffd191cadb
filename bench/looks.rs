//! Looks at the ranges of a memory map that `arc-swap` publishes, by `ArcSwap::load` and by a reader's own `Cache`: what
//! `bench/looks --beside-arc-swap` shows beside looks at the published map. The addresses and the number of ranges are
//! the same, but a range is not joined with its neighbours.
use arc_swap::cache::Cache;
use arc_swap::ArcSwap;
use std::sync::atomic::{AtomicBool, Ordering};
use std::sync::Arc;
use std::time::{Duration, Instant};

/// How long each row is measured.
const TIME: Duration = Duration::from_millis(500);

const BATCH: u32 = 1_000;

#[derive(Clone, Copy, PartialEq, Eq)]
enum Area {
    Dram(u8),
    Shadow(u8),
    Rom,
    Abort,
}

#[derive(Clone, Copy)]
struct Range {
    lo: u32,
    hi: u32,
    areas: [Area; 6],
}

struct Map {
    ranges: Vec<Range>,
    version: u32,
}

struct Look {
    version: u32,
    lo: u32,
    hi: u32,
    area: Area,
}

impl Map {
    /// Eight ranges, of which one changes with PAM0.
    fn new(version: u32) -> Map {
        let shadow = if version % 2 == 0 { Area::Abort } else { Area::Shadow(0) };
        let parts = [
            (0x0009_FFFF, Area::Dram(0)),
            (0x000B_FFFF, Area::Abort),
            (0x000E_FFFF, Area::Abort),
            (0x000F_FFFF, shadow),
            (0x00FF_FFFF, Area::Dram(0)),
            (0xFFF7_FFFF, Area::Abort),
            (0xFFFB_FFFF, Area::Rom),
            (0xFFFF_FFFF, Area::Rom),
        ];
        let mut lo = 0;
        let mut ranges = Vec::new();
        for (hi, area) in parts {
            ranges.push(Range { lo, hi, areas: [area; 6] });
            lo = u32::wrapping_add(hi, 1);
        }
        Map { ranges, version }
    }

    fn look(&self, addr: u32, column: usize) -> Look {
        let range = &self.ranges[self.ranges.partition_point(|range| range.hi < addr)];
        Look { version: self.version, lo: range.lo, hi: range.hi, area: range.areas[column] }
    }
}

/// The address of a look: all over the map, or all over its ranges.
fn address(batch: u32, i: u32, scattered: bool) -> u32 {
    let addr = batch.wrapping_mul(BATCH).wrapping_add(i).wrapping_mul(0x9E37_79B1);
    if scattered { addr >> (addr % 16) } else { addr }
}

/// How many looks were made, and a sum of what they saw.
fn looks(start: Instant, scattered: bool, mut look: impl FnMut(u32) -> Look) -> (u64, u32) {
    let (mut count, mut sum) = (0, 0_u32);
    while start.elapsed() < TIME {
        for i in 0..BATCH {
            let seen = look(address(count, i, scattered));
            sum = sum.wrapping_add(seen.lo).wrapping_add(seen.hi ^ seen.version).wrapping_add((seen.area == Area::Rom) as u32);
        }
        count += 1;
    }
    (u64::from(count) * u64::from(BATCH), sum)
}

#[derive(Clone, Copy)]
enum By {
    Load,
    Cache,
}

/// What is measured: by so many readers, beside a writer or not, and with scattered addresses or not.
#[derive(Clone, Copy)]
struct Row {
    readers: usize,
    published: bool,
    scattered: bool,
}

fn look_by(by: By, start: Instant, scattered: bool, map: &ArcSwap<Map>) -> u64 {
    let (count, sum) = match by {
        By::Load => looks(start, scattered, |addr| map.load().look(addr, 1)),
        By::Cache => {
            let mut cache = Cache::new(map);
            looks(start, scattered, |addr| cache.load().look(addr, 1))
        }
    };
    std::hint::black_box(sum);
    count
}

/// Looks of so many readers, and the changes of a writer beside them, a second.
fn measure(by: By, row: Row) -> (u64, u64) {
    let map = ArcSwap::from_pointee(Map::new(0));
    let over = AtomicBool::new(false);
    let start = Instant::now();
    let (mut count, mut changes) = (0, 0);
    std::thread::scope(|scope| {
        let writer = row.published.then(|| {
            scope.spawn(|| {
                let mut version = 0;
                while !over.load(Ordering::Relaxed) {
                    version += 1;
                    map.store(Arc::new(Map::new(version)));
                }
                u64::from(version)
            })
        });
        let readers: Vec<_> = (0..row.readers).map(|_| scope.spawn(|| look_by(by, start, row.scattered, &map))).collect();
        count = readers.into_iter().map(|reader| reader.join().unwrap()).sum();
        over.store(true, Ordering::Relaxed);
        changes = writer.map_or(0, |writer| writer.join().unwrap());
    });
    let second = 1_000 / TIME.as_millis() as u64;
    (count * second, changes * second)
}

fn main() {
    let second = 1_000 / TIME.as_millis() as u64;
    let rows = [(1, false), (4, false), (1, true), (4, true)];
    for _ in 0..3 {
        for scattered in [false, true] {
            let map = Map::new(0);
            let (count, sum) = looks(Instant::now(), scattered, |addr| map.look(addr, 1));
            println!("arc-swap: {}searches in a plain map, 1 thread: {} a second (sum {sum})", named(scattered), count * second);
            for (name, by) in [("load", By::Load), ("cache", By::Cache)] {
                for (readers, published) in rows {
                    let (count, changes) = measure(by, Row { readers, published, scattered });
                    let threads = if readers == 1 { "thread" } else { "threads" };
                    let beside = if published { ", while another publishes" } else { "" };
                    println!("arc-swap: {}looks by {name}, {readers} {threads}{beside}: {count} a second ({changes} changes a second)", named(scattered));
                }
            }
        }
    }
}

/// What the rows begin with whose addresses lie all over the ranges.
fn named(scattered: bool) -> &'static str {
    if scattered { "scattered " } else { "" }
}
