//! A monitor: a PC of one processor by KVM on the board's chips, with a disk, and COM1 as standard input and output.
//!
//!     kvm BIOS DISK MIB     as in kvm /usr/share/seabios/bios.bin disk.img 64
//!
//! `stty raw -echo` stands before it, and Ctrl-] ends it. DISK has each sector as soon as the guest has written it.

mod disk;

use board_440fx::{Board, Clocks, Memory, Pages, Reset, Slot, Slots};
use disk::Disk;
use std::io::{self, Error, Read, Write};
use std::os::raw::{c_int, c_long, c_ulong, c_void};
use std::os::unix::io::{AsRawFd, RawFd};
use std::ptr::null_mut;
use std::sync::mpsc::{channel, Receiver};
use std::time::{Duration, Instant};
use std::{env, fs, thread};

type Outcome<T> = Result<T, Box<dyn std::error::Error>>;

const ROM_BYTES: usize = 512 << 10; // a smaller BIOS stands in them again and again
const TICK: Duration = Duration::from_millis(1); // after which time and keys are looked at again
const END_KEY: u8 = 0x1D;

struct Monitor {
    board: Board,
    disk: Disk,
    processor: Processor,
    memory: Pages,
    rom: Pages,
    slots: Slots,
    version: Option<u32>, // of the map that they are of
    reset: Option<Reset>, // the strongest that is to be done yet
    is_halted: bool,
    begun: Instant,
    clocks: Clocks,
    keys: Receiver<u8>,
}

impl Monitor {
    /// The instruction that made the last exit ends, which may make more, and none begins. Then the processor is at its
    /// reset vector, and after a hard reset firmware finds set what it takes for given.
    fn restart(&mut self, reset: Reset) -> Outcome<()> {
        while self.processor.run(false, true)? {
            self.serve()?;
        }
        if reset == Reset::Hard {
            self.board.prepare()?;
        }
        (self.reset, self.is_halted) = (None, false);
        Ok(self.processor.reset()?)
    }

    fn follow_map(&mut self) -> Outcome<()> {
        let map = self.board.map()?;
        for change in self.slots.follow(&map, self.memory.mib(), ROM_BYTES as u32) {
            let (number, slot) = change.region();
            let pages = if slot.is_rom { &self.rom } else { &self.memory };
            self.processor.set_slot(number, slot, pages.as_ptr() as u64 + slot.offset)?;
        }
        self.version = Some(map.version);
        Ok(())
    }

    /// An access of any count of bytes, whose data stand at a place of KVM's page.
    fn access(&mut self, is_port: bool, is_write: bool, addr: u64, bytes: usize, place: usize) -> Outcome<()> {
        let mut data = vec![0; bytes];
        self.processor.page.get(place, &mut data);
        let answer = match (is_port, is_write) {
            (true, false) => self.board.port_read(addr as u16, &mut data)?,
            (true, true) => self.board.port_write(addr as u16, &data)?,
            (false, false) => self.board.memory_read(addr, &mut data, &self.memory)?,
            (false, true) => self.board.memory_write(addr, &data, &self.memory)?,
        };
        self.processor.page.put(place, &data); // of a write as they were
        if is_port && is_write {
            self.disk.see(&mut self.board, addr as u16, &data)?;
        }
        self.reset = self.reset.max(answer.and_then(|answer| answer.reset));
        let sent = answer.and_then(|answer| answer.sent);
        Ok(sent.map_or(Ok(()), |byte| io::stdout().write_all(&[byte]).and_then(|()| io::stdout().flush()))?)
    }

    /// Serves an exit: whether the guest can go on. The numbers are places in struct kvm_run, and bytes there.
    fn serve(&mut self) -> Outcome<bool> {
        let field = |at, bytes| self.processor.field(at, bytes);
        match field(8, 4) {
            2 => {
                let (is_out, bytes, port, count) = (field(32, 1) == 1, field(33, 1), field(34, 2), field(36, 4));
                let mut places = (field(40, 8) as usize..).step_by(bytes as usize).take(count as usize);
                places.try_for_each(|place| self.access(true, is_out, port, bytes as usize, place))?;
            }
            6 => self.access(false, field(52, 1) == 1, field(32, 8), field(48, 4) as usize, 40)?, // KVM_EXIT_MMIO
            5 => self.is_halted = self.processor.field(13, 1) == 1, // KVM_EXIT_HLT, if_flag
            8 => self.reset = self.reset.max(Some(Reset::Soft)),    // KVM_EXIT_SHUTDOWN, a triple fault
            7 | 10 => (),                                           // KVM_EXIT_IRQ_WINDOW_OPEN, KVM_EXIT_INTR
            other => return Err(format!("exit {other} of KVM").into()),
        }
        Ok(self.is_halted || self.processor.field(8, 4) != 5)
    }

    fn has_interrupt(&self) -> bool {
        self.board.last().map_or(false, |answer| answer.interrupt)
    }

    /// COM1's next bytes, as far as there is room: false where the end was asked for.
    fn listen(&mut self) -> Outcome<bool> {
        while self.board.last().map_or(false, |answer| answer.serial_room) {
            match self.keys.try_recv() {
                Ok(END_KEY) => return Ok(false),
                Ok(key) => self.board.receive(key).map(|_| ())?,
                Err(_) => break,
            }
        }
        Ok(true)
    }

    fn run(&mut self) -> Outcome<()> {
        let mut goes_on = true;
        while goes_on && self.listen()? {
            if let Some(reset) = self.reset {
                self.restart(reset)?;
            }
            self.board.run_until(&mut self.clocks, self.begun.elapsed())?;
            if self.version != self.board.last().map(|answer| answer.version) {
                self.follow_map()?;
            }
            if self.is_halted && !self.has_interrupt() {
                thread::sleep(TICK);
                continue;
            }
            if self.has_interrupt() && self.processor.field(12, 2) == 0x0101 {
                // ready_for_interrupt_injection, if_flag
                self.processor.interrupt(self.board.acknowledge()?)?;
                self.is_halted = false;
            }
            goes_on = !self.processor.run(self.has_interrupt(), false)? || self.serve()?;
        }
        Ok(())
    }
}

fn main() -> Outcome<()> {
    let mut words = env::args().skip(1);
    let mut word = || words.next().ok_or("usage: kvm BIOS DISK MIB");
    let (bios, (disk, sectors), mib) = (fs::read(word()?)?, Disk::open(&word()?)?, word()?.parse()?);
    let board = Board::builder().memory_mib(mib).rom(&bios).disk(&sectors).open()?;
    let (memory, rom) = (Pages::new((mib as usize) << 20)?, Pages::new(ROM_BYTES)?);
    (0..ROM_BYTES).step_by(bios.len()).for_each(|at| rom.put(at, &bios));
    let (sender, keys) = channel();
    thread::spawn(move || io::stdin().lock().bytes().flatten().try_for_each(|key| sender.send(key)));
    let (processor, slots, clocks) = (Processor::open()?, Slots::default(), Clocks::default());
    let (version, reset, is_halted, begun) = (None, Some(Reset::Hard), false, Instant::now());
    Monitor { board, disk, processor, memory, rom, slots, version, reset, is_halted, begun, clocks, keys }.run()
}

// ---- what it needs of KVM, for which Debian 12 has no crate

extern "C" {
    fn ioctl(fd: RawFd, request: c_ulong, argument: *mut c_void) -> c_int;
    fn mmap(at: *mut c_void, bytes: usize, protection: c_int, flags: c_int, fd: RawFd, offset: c_long) -> *mut c_void;
    fn signal(number: c_int, handler: extern "C" fn(c_int)) -> usize;
    fn ualarm(first: u32, every: u32) -> u32;
}

extern "C" fn end_run(_: c_int) {}

fn call<T>(fd: RawFd, request: c_ulong, argument: *mut T) -> io::Result<c_int> {
    // SAFETY: each call here hands over the record that its request reads or writes.
    match unsafe { ioctl(fd, request, argument.cast()) } {
        -1 => Err(Error::last_os_error()),
        done => Ok(done),
    }
}

const LEAVES: usize = 256;
const LEAF: usize = 10; // words: function, index, flags, eax, ebx, ecx, edx, and three more

struct Processor {
    vm: RawFd,
    cpu: RawFd,
    at_start: [u64; 39], // struct kvm_sregs
    page: Pages,         // that KVM shares: struct kvm_run
}

impl Processor {
    /// The host's, without an APIC, as the board has none; a signal ends each run after a tick.
    fn open() -> io::Result<Processor> {
        let file = fs::OpenOptions::new().read(true).write(true).open("/dev/kvm")?;
        let (kvm, mut id, mut at_start) = (file.as_raw_fd(), vec![0u32; 2 + LEAVES * LEAF], [0; 39]);
        let vm = call::<u8>(kvm, 0xAE01, null_mut())?; // KVM_CREATE_VM
        call(vm, 0x4008_AE48, &mut 0xFEFF_C000u64)?; // KVM_SET_IDENTITY_MAP_ADDR: not in the ROM's range
        call(vm, 0xAE47, 0xFEFF_D000 as *mut u8)?; // KVM_SET_TSS_ADDR
        let cpu = call::<u8>(vm, 0xAE41, null_mut())?; // KVM_CREATE_VCPU
        let bytes = call::<u8>(kvm, 0xAE04, null_mut())? as usize; // KVM_GET_VCPU_MMAP_SIZE
        let page = unsafe { Pages::over(mmap(null_mut(), bytes, 3, 1, cpu, 0).cast(), bytes) }; // SAFETY: they stay
        if page.as_ptr() as isize == -1 {
            return Err(Error::last_os_error());
        }
        id[0] = LEAVES as u32;
        call(kvm, 0xC008_AE05, id.as_mut_ptr())?; // KVM_GET_SUPPORTED_CPUID
        for leaf in id[2..].chunks_mut(LEAF) {
            match leaf[0] {
                1 => (leaf[5], leaf[6]) = (leaf[5] & !(1 << 21 | 1 << 24 | 1 << 31), leaf[6] & !(1 << 9)), // APIC, KVM
                0x4000_0000..=0x4000_FFFF => leaf[3..7].fill(0),                                           // KVM's own
                _ => (),
            }
        }
        call(cpu, 0x4008_AE90, id.as_mut_ptr())?; // KVM_SET_CPUID2
        call(cpu, 0x8138_AE83, &mut at_start)?; // KVM_GET_SREGS
        (at_start[0], at_start[34]) = (0xFFFF_0000, 0); // the base of CS, and of the APIC
        at_start[1] = at_start[1] & !(0xFFFF << 32) | 0xF000 << 32; // CS
        let tick = TICK.as_micros() as u32;
        unsafe { (signal(14, end_run), ualarm(tick, tick)) }; // SAFETY: SIGALRM, whose handler does nothing
        Ok(Processor { vm, cpu, at_start, page })
    }

    fn reset(&mut self) -> io::Result<()> {
        let (mut registers, mut events) = ([0u64; 18], [0u64; 8]);
        (registers[16], registers[17]) = (0xFFF0, 2); // rip, rflags
        call(self.cpu, 0x4138_AE84, &mut self.at_start)?; // KVM_SET_SREGS
        call(self.cpu, 0x4040_AEA0, &mut events)?; // KVM_SET_VCPU_EVENTS
        call(self.cpu, 0x4090_AE82, &mut registers).map(|_| ()) // KVM_SET_REGS
    }

    fn set_slot(&self, number: u32, slot: Slot, host: u64) -> io::Result<()> {
        let flags = if slot.is_read_only { 2 << 32 } else { 0 };
        let mut region = [u64::from(number) | flags, slot.addr, slot.bytes, host];
        call(self.vm, 0x4020_AE46, &mut region).map(|_| ()) // KVM_SET_USER_MEMORY_REGION
    }

    fn field(&self, at: usize, bytes: usize) -> u64 {
        let mut number = [0; 8];
        self.page.get(at, &mut number[..bytes]);
        u64::from_le_bytes(number)
    }

    fn interrupt(&self, vector: u8) -> io::Result<()> {
        call(self.cpu, 0x4004_AE86, &mut u32::from(vector)).map(|_| ()) // KVM_INTERRUPT
    }

    /// Runs until an exit, also where an interrupt can be taken; false of a signal, and where nothing is to begin.
    fn run(&self, wants_interrupt: bool, only_ends: bool) -> io::Result<bool> {
        self.page.put(0, &[wants_interrupt.into(), only_ends.into()]); // request_interrupt_window, immediate_exit
        match call::<u8>(self.cpu, 0xAE80, null_mut()) {
            Err(fault) if fault.kind() == io::ErrorKind::Interrupted => Ok(false),
            done => done.map(|_| true), // KVM_RUN
        }
    }
}
