//! The board as a device of rust-vmm, alone and under a lock that eight threads share.

use board_440fx::{Board, Reset, Slots};
use board_440fx_rust_vmm::{reach_of_masters, Chipset};
use std::fs::{self, File, OpenOptions};
use std::sync::atomic::{AtomicU32, Ordering};
use std::sync::{Arc, Mutex};
use std::thread;
use std::time::Duration;
use vm_device::bus::{MmioAddress, PioAddress};
use vm_device::{DeviceMmio, DevicePio};
use vm_memory::{Bytes, FileOffset, GuestAddress, GuestMemory, GuestMemoryMmap};
use vm_superio::Trigger;

const MIB: u32 = 8;
const ROM_BYTES: usize = 65536;
const THREADS: usize = 8;
const PIT_HERTZ: u64 = 1_193_182;
const COUNT: u16 = 1000; // of the timer, in mode 2: it rises first after one pulse more

/// How often INT rose.
#[derive(Clone, Default)]
struct Rises(Arc<AtomicU32>);

impl Trigger for Rises {
    type E = ();

    fn trigger(&self) -> Result<(), ()> {
        self.0.fetch_add(1, Ordering::SeqCst);
        Ok(())
    }
}

type Shared = Arc<Mutex<Chipset<GuestMemoryMmap, Rises, Vec<u8>>>>;

fn rom() -> Vec<u8> {
    (0..ROM_BYTES).map(|at| (at * 7) as u8).collect()
}

fn opened() -> (Shared, Rises) {
    let memory = GuestMemoryMmap::from_ranges(&[(GuestAddress(0), (MIB as usize) << 20)]).unwrap();
    let board = Board::builder().memory_mib(MIB).rom(&rom()).open().unwrap();
    let rises = Rises::default();
    (Arc::new(Mutex::new(Chipset::new(board, memory, rises.clone(), Vec::new()).unwrap())), rises)
}

fn out(ports: &impl DevicePio, port: u16, data: &[u8]) {
    ports.pio_write(PioAddress(0), port, data);
}

/// Writes a byte of configuration data; of two registers the second byte.
fn configure(ports: &impl DevicePio, register: u32, value: u8) {
    out(ports, 0xCF8, &(0x8000_0000 | register & !3).to_le_bytes());
    out(ports, 0xCFC + (register & 3) as u16, &[value]);
}

/// The first 8259A with its vectors at 8, line 0 open alone, and counter 0 of the 8254 in mode 2.
fn set_up_timer(ports: &impl DevicePio, count: u16) {
    let [low, high] = count.to_le_bytes();
    for (port, byte) in
        [(0x20, 0x11), (0x21, 8), (0x21, 4), (0x21, 1), (0x21, 0xFE), (0x43, 0x34), (0x40, low), (0x40, high)]
    {
        out(ports, port, &[byte]);
    }
}

/// A time at which so many rises have come, and no more.
fn after_rises(rises: u64) -> Duration {
    let pulses = rises * u64::from(COUNT) + u64::from(COUNT / 2);
    Duration::from_nanos(pulses * 1_000_000_000 / PIT_HERTZ)
}

#[test]
fn ports_and_memory() {
    let (chipset, _) = opened();
    let mut id = [0; 4];
    out(&*chipset, 0xCF8, &0x8000_0000u32.to_le_bytes());
    DevicePio::pio_read(&*chipset, PioAddress(0xCFC), 0, &mut id);
    assert_eq!(u32::from_le_bytes(id), 0x1237_8086);
    configure(&*chipset, 0x5B, 0x20); // PAM2: CC000h to CFFFFh for writes alone
    for bytes in 1..=8u8 {
        let (at, written) = (u64::from(bytes) * 32 + 5, (1..=bytes).collect::<Vec<_>>());
        chipset.mmio_write(MmioAddress(0xCC000), at, &written);
        let mut read = vec![0; bytes.into()];
        chipset.mmio_read(MmioAddress(0xCC000), at, &mut read);
        assert_eq!(read, vec![0xFF; bytes.into()]);
        chipset.lock().unwrap().memory().read_slice(&mut read, GuestAddress(0xCC000 + at)).unwrap();
        assert_eq!(read, written);
    }
    let (mut seven, rom) = ([0; 7], rom());
    chipset.mmio_read(MmioAddress(0xFFFF_FFFD), 0, &mut seven);
    assert_eq!(seven, [rom[0xFFFD], rom[0xFFFE], rom[0xFFFF], 0xFF, 0xFF, 0xFF, 0xFF]);
    chipset.mmio_read(MmioAddress(u64::MAX), 1, &mut seven);
    assert_eq!(seven, [0xFF; 7]);
    DevicePio::pio_read(&*chipset, PioAddress(0xFFFF), 1, &mut id);
    assert_eq!(id, [0xFF; 4]);
    out(&*chipset, 0x3F8, b"A");
    assert_eq!(chipset.lock().unwrap().console(), b"A");
    chipset.lock().unwrap().run_until(Duration::ZERO).unwrap();
    assert_eq!(chipset.lock().unwrap().console(), b"A");
}

#[test]
fn int_wakes_where_it_rises() {
    let (chipset, rises) = opened();
    set_up_timer(&*chipset, COUNT);
    let mut chipset = chipset.lock().unwrap();
    for k in 1..=3u64 {
        chipset.run_until(after_rises(k)).unwrap();
        assert!(chipset.interrupt());
        assert_eq!(rises.0.load(Ordering::SeqCst), k as u32);
        assert_eq!(chipset.vector(), Ok(8));
        assert!(!chipset.interrupt());
        chipset.step(|board| board.out_u8(0x20, 0x20)).unwrap(); // the end of the interrupt
    }
}

#[test]
fn a_reset_is_taken_once_and_prepares_again() {
    let (chipset, _) = opened();
    out(&*chipset, 0xCF9, &[2]);
    out(&*chipset, 0xCF9, &[6]);
    let mut chipset = chipset.lock().unwrap();
    assert_eq!(chipset.take_reset(), Ok(Some(Reset::Hard)));
    assert_eq!(chipset.take_reset(), Ok(None));
    let of_rom = chipset.board().map().unwrap().ranges.iter().any(|range| range.lo == 0xE0000);
    assert!(of_rom, "XBCS: the ROM answers from E0000h on");
}

#[test]
fn slots_have_the_hosts_addresses() {
    let (chipset, _) = opened();
    let (mut slots, mut rom) = (Slots::default(), vec![0; 512 << 10]);
    let chipset = chipset.lock().unwrap();
    let host = |addr| chipset.memory().get_host_address(GuestAddress(addr)).unwrap();
    let at = rom.as_mut_ptr();
    let told = chipset.follow(&mut slots, at, 512 << 10).unwrap();
    let told: Vec<_> = told.into_iter().map(|(_, slot, host)| (slot.addr, slot.bytes, host)).collect();
    let (low, top) = (at.wrapping_add(0x60000), at);
    let memory = [(0, 0xA_0000, host(0)), (0x10_0000, 0x70_0000, host(0x10_0000))];
    assert_eq!(told, [memory[0], (0xE_0000, 0x2_0000, low), memory[1], (0xFFF8_0000, 0x8_0000, top)]);
}

/// The guest's memory and that of a device are mappings of one file.
fn shared_file() -> Arc<File> {
    let path = std::env::temp_dir().join(format!("board-440fx-rust-vmm.{}", std::process::id()));
    let file = OpenOptions::new().read(true).write(true).create_new(true).open(&path).unwrap();
    fs::remove_file(path).unwrap();
    file.set_len(u64::from(MIB) << 20).unwrap();
    Arc::new(file)
}

#[test]
fn a_device_has_the_memory_that_a_bus_master_reaches() {
    let mut board = Board::builder().memory_mib(MIB).rom(&rom()).open().unwrap();
    board.prepare().unwrap();
    let low_and_high = [(GuestAddress(0), 0xA_0000), (GuestAddress(0x10_0000), 0x70_0000)];
    assert_eq!(reach_of_masters(&board).unwrap(), low_and_high);
    let file = shared_file();
    let offset = |at| Some(FileOffset::from_arc(file.clone(), at));
    let guest = GuestMemoryMmap::<()>::from_ranges_with_files([(GuestAddress(0), (MIB as usize) << 20, offset(0))]);
    let reach = reach_of_masters(&board).unwrap().into_iter().map(|(addr, bytes)| (addr, bytes, offset(addr.0)));
    let (guest, device) = (guest.unwrap(), GuestMemoryMmap::<()>::from_ranges_with_files(reach).unwrap());
    device.write_obj(0x1234_5678u32, GuestAddress(0x20_0000)).unwrap();
    assert_eq!(guest.read_obj::<u32>(GuestAddress(0x20_0000)).unwrap(), 0x1234_5678);
    assert!(device.write_obj(0u8, GuestAddress(0xA_0000)).is_err(), "SMRAM and the screen");
    assert!(device.write_obj(0u8, GuestAddress(0xF_0000)).is_err(), "the ROM's");
    let pam0 = board_440fx::Register { device: 0, function: 0, offset: 0x59 };
    board.config_write(pam0, 0x30).unwrap(); // F0000h to FFFFFh: memory to read and write
    let with_shadow = [(GuestAddress(0), 0xA_0000), (GuestAddress(0xF_0000), 0x71_0000)];
    assert_eq!(reach_of_masters(&board).unwrap(), with_shadow);
}

/// Eight threads share the board under its lock: each writes a window and reads its own bytes of the memory without the
/// lock, sends its letter, and adds to a byte of the clock with the lock held over index and data; one lets time go by.
#[test]
fn eight_threads_under_one_lock() {
    const ROUNDS: usize = 200;
    let (chipset, rises) = opened();
    configure(&*chipset, 0x5B, 0x20);
    set_up_timer(&*chipset, COUNT);
    let memory = chipset.lock().unwrap().memory().clone();
    thread::scope(|threads| {
        for thread in 0..THREADS {
            let (chipset, memory) = (chipset.clone(), memory.clone());
            threads.spawn(move || one_of_eight(&chipset, &memory, thread, ROUNDS));
        }
    });
    let chipset = chipset.lock().unwrap();
    for thread in 0..THREADS {
        let letter = b'a' + thread as u8;
        assert_eq!(chipset.console().iter().filter(|&&byte| byte == letter).count(), ROUNDS);
    }
    assert_eq!(chipset.console().len(), THREADS * ROUNDS);
    assert_eq!(chipset.board().cmos_read(0x40), Ok((THREADS * ROUNDS) as u8));
    assert_eq!(rises.0.load(Ordering::SeqCst), ROUNDS as u32);
}

fn one_of_eight(chipset: &Shared, memory: &GuestMemoryMmap, thread: usize, rounds: usize) {
    let at = 0xCC000 + 64 * thread as u64;
    for round in 0..rounds {
        let data = [thread as u8, round as u8, 3, 4, 5, 6, 7];
        chipset.mmio_write(MmioAddress(at), 1, &data);
        let mut seven = [0; 7];
        memory.read_slice(&mut seven, GuestAddress(at + 1)).unwrap();
        assert_eq!(seven, data);
        memory.write_slice(&data, GuestAddress(0x10_0000 + at)).unwrap();
        chipset.mmio_read(MmioAddress(0x10_0000), at, &mut seven);
        assert_eq!(seven, data);
        out(&**chipset, 0x3F8, &[b'a' + thread as u8]);
        let mut whole = chipset.lock().unwrap();
        whole.step(|board| board.out_u8(0x70, 0x40)).unwrap();
        whole.step(|board| board.in_u8(0x71).and_then(|byte| board.out_u8(0x71, byte.wrapping_add(1)))).unwrap();
        if thread == 0 {
            whole.run_until(after_rises(round as u64 + 1)).unwrap();
            assert_eq!(whole.vector(), Ok(8));
            whole.step(|board| board.out_u8(0x20, 0x20)).unwrap();
        }
    }
}

#[test]
fn a_chipset_moves_between_threads() {
    fn is_send<T: Send>(_: &T) {}
    fn is_sync<T: Sync>(_: &T) {}
    let (chipset, _) = opened();
    is_sync(&chipset);
    is_send(&chipset);
}
