// The guest's processor is that of Bochs: its ports, its memory and its interrupts are the machine's. Bochs's own devices
// are there and reach nothing. This file is Bochs's instrumentation, so that Bochs itself is compiled as it stands.
#include "bochs.h"
#include "cpu/cpu.h"
#include "cpu/apic.h"
#include "iodev/iodev.h"
#include "machine.h"
#include <time.h>
#include <unistd.h>
#include <vector>

static machine m;
static options wanted;
static int timer = BX_NULL_TIMER_HANDLE;
static Bit64u host_start, listened;

enum { LISTEN = 1000000 }; // nanoseconds of the guest's time between two looks at the terminal

static Bit64u host_time() {
  struct timespec t;
  clock_gettime(CLOCK_MONOTONIC, &t);
  return (Bit64u)t.tv_sec * NANOSECONDS + (Bit64u)t.tv_nsec;
}

// Bochs counts its processor's instructions as ticks: these are the guest's time, after that which a saved guest had had.
uint64_t processor_time(void) {
  Bit64u ticks = bx_pc_system.time_ticks(), speed = m.options.speed;
  return m.loaded_at + ticks / speed * 1000 + ticks % speed * 1000 / speed;
}

static void end(const char *reason) {
  double seconds = (double)(host_time() - host_start) / NANOSECONDS;
  machine_close(&m, reason);
  fprintf(stderr, "bochs: at %04X:%llX; %.1f million ticks in %.2f s\n", BX_CPU(0)->sregs[BX_SEG_REG_CS].selector.value,
          (unsigned long long)BX_CPU(0)->get_instruction_pointer(), (double)bx_pc_system.time_ticks() / 1e6, seconds);
  exit(0);
}

// ---- memory: one handler over all addresses, in the place of Bochs's own memory

static bool read_memory(bx_phy_address addr, unsigned bytes, void *data, void *) {
  Bit8u *host = slots_find(&m, addr, false);
  if (host) memcpy(data, host, bytes);
  else machine_memory(&m, BOARD_READ, addr, bytes, (Bit8u *)data);
  return true;
}

static bool write_memory(bx_phy_address addr, unsigned bytes, void *data, void *) {
  Bit8u *host = slots_find(&m, addr, true);
  pageWriteStampTable.decWriteStamp(addr); // code that Bochs has decoded from there is stale
  if (host) memcpy(host, data, bytes);
  else machine_memory(&m, BOARD_WRITE, addr, bytes, (Bit8u *)data);
  return true;
}

static Bit8u *direct_memory(bx_phy_address addr, unsigned access, void *) {
  return slots_find(&m, addr, access == BX_WRITE || access == BX_RW);
}

void processor_wrote(uint64_t addr, uint64_t bytes) {
  for (Bit64u page = addr & ~(Bit64u)(GUEST_PAGE - 1); page < addr + bytes; page += GUEST_PAGE) pageWriteStampTable.decWriteStamp(page);
}

static void move_slots() {
  m.slots_moved = false;
  BX_CPU(0)->TLB_flush();
  flushICaches();
}

// ---- interrupts: INT of the board is INTR of the processor, and the vector is asked when the processor takes it

static void show_interrupt() {
  if (m.interrupt) BX_CPU(0)->raise_INTR();
  else BX_CPU(0)->clear_INTR();
}

class board_pic : public bx_pic_stub_c {
 public:
  void raise_irq(unsigned) {}
  void lower_irq(unsigned) {}
  void set_mode(bool, Bit8u) {}
  Bit8u IAC(void) {
    Bit8u vector = machine_acknowledge(&m);
    show_interrupt();
    return vector;
  }
};

static board_pic pic;

// ---- the processor's state: Bochs's own list of it, whose numbers stand in the order of the list

const uint32_t processor_kind = PROCESSOR_BOCHS;

// What is done with each of the numbers.
class visitor {
 public:
  virtual void visit(bx_param_num_c *number) = 0;
};

static void walk(bx_list_c *list, visitor &v) {
  for (int k = 0; k < list->get_size(); k++) {
    bx_param_c *it = list->get(k);
    if (it->get_type() == BXT_LIST) walk((bx_list_c *)it, v);
    else if (it->get_type() == BXT_PARAM_NUM || it->get_type() == BXT_PARAM_BOOL) v.visit((bx_param_num_c *)it);
  }
}

static void walk_processor(visitor &v) { walk((bx_list_c *)SIM->get_bochs_root()->get_by_name("cpu0"), v); }

// How many numbers there are, and the sum of their names: those of another Bochs are others.
class counter : public visitor {
 public:
  Bit64u count = 0, sum = 0;
  void visit(bx_param_num_c *number) {
    count++;
    for (const char *c = number->get_name(); *c; c++) sum = (sum ^ (Bit8u)*c) * 0x100000001B3ull;
  }
};

class writer : public visitor {
 public:
  Bit64u *next;
  void visit(bx_param_num_c *number) { *next++ = (Bit64u)number->get64(); }
};

class reader : public visitor {
 public:
  const Bit64u *next;
  void visit(bx_param_num_c *number) { number->set((Bit64s)*next++); }
};

// Before the numbers stand the names' sum, and the count of RDTSC, which Bochs has by its ticks.
enum { HEAD_NUMBERS = 2 };

size_t processor_bytes(void) {
  counter c;
  walk_processor(c);
  return (HEAD_NUMBERS + c.count) * sizeof(Bit64u);
}

void processor_save(uint8_t *into) {
  counter c;
  writer w;
  std::vector<Bit64u> numbers(processor_bytes() / sizeof(Bit64u));
  walk_processor(c);
  numbers[0] = c.sum;
  numbers[1] = BX_CPU(0)->get_TSC();
  w.next = numbers.data() + HEAD_NUMBERS;
  walk_processor(w);
  memcpy(into, numbers.data(), numbers.size() * sizeof(Bit64u));
}

// The processor goes on from the state that was loaded.
static void take_processor() {
  counter c;
  reader r;
  std::vector<Bit64u> numbers(processor_bytes() / sizeof(Bit64u));
  walk_processor(c);
  if (m.processor_bytes == numbers.size() * sizeof(Bit64u)) memcpy(numbers.data(), m.processor, m.processor_bytes);
  if (numbers[0] != c.sum) {
    fprintf(stderr, "monitor: %s: a processor of another Bochs\n", wanted.load);
    exit(1);
  }
  r.next = numbers.data() + HEAD_NUMBERS;
  walk_processor(r);
  BX_CPU(0)->set_TSC(numbers[1]);
  BX_CPU(0)->after_restore_state();
  m.processor = NULL;
}

// A bus master's request, which the processor grants between two instructions and while it is halted: there the guest is saved.
class board_dma : public bx_dma_stub_c {
 public:
  void set_DRQ(unsigned, bool) {}
  bool get_TC(void) { return false; }
  void raise_HLDA(void) {
    bx_pc_system.set_HRQ(false);
    machine_save(&m);
    if (console_ended()) end(console_why());
  }
};

static board_dma dma;

// ---- time: a timer of Bochs rings when the machine's clock must run

static void plan() {
  Bit64u now = processor_time(), next = m.wake < now + LISTEN ? m.wake : now + LISTEN;
  Bit64u ticks = next > now ? (next - now) * m.options.speed / 1000 + 1 : 1;
  bx_pc_system.activate_timer_ticks(timer, ticks, false);
}

// Where someone types the guest's time does not run before the host's.
static void pace() {
  Bit64u guest = processor_time() - m.loaded_at, host = host_time() - host_start;
  if (guest <= host || !isatty(STDIN_FILENO)) return;
  struct timespec rest = {0, (long)((guest - host) % NANOSECONDS)};
  fflush(stdout);
  nanosleep(&rest, NULL);
}

static void on_timer(void *) {
  Bit64u now = processor_time();
  if (now >= m.wake) clock_runs_to(&m, now);
  if (now >= listened + LISTEN) {
    listened = now;
    pace();
    console_listen(&m);
    if (console_save_asked()) bx_pc_system.set_HRQ(true); // it may be ended there
    else if (console_ended()) end(console_why());
    if (wanted.seconds && host_time() - host_start > wanted.seconds * NANOSECONDS) end("the time is up");
  }
  show_interrupt();
  plan();
}

// ---- ports

static void after_exit() {
  if (console_ended()) end(console_why());
  if (m.slots_moved) move_slots();
  if (m.reset) {
    unsigned type = machine_take_reset(&m) == BOARD_HARD_RESET ? BX_RESET_HARDWARE : BX_RESET_SOFTWARE;
    bx_pc_system.Reset(type);
    if (m.slots_moved) move_slots();
  }
  show_interrupt();
  plan();
}

// Of a string instruction Bochs says where its values are, and takes as many as were done.
static void do_string(Bit8u kind, Bit16u port, unsigned bytes) {
  size_t done = machine_string(&m, kind, port, bytes, bx_devices.bulkIOHostAddr, bx_devices.bulkIOQuantumsRequested);
  bx_devices.bulkIOQuantumsTransferred = (unsigned)done;
  bx_devices.bulkIOHostAddr += done * bytes;
}

Bit32u board_port_in(Bit16u port, unsigned bytes) {
  Bit32u value = 0;
  if (bx_devices.bulkIOQuantumsRequested) do_string(BOARD_READ, port, bytes);
  else value = machine_in(&m, port, bytes);
  show_interrupt();
  return value;
}

void board_port_out(Bit16u port, Bit32u value, unsigned bytes) {
  if (bx_devices.bulkIOQuantumsRequested) do_string(BOARD_WRITE, port, bytes);
  else machine_out(&m, port, bytes, value);
  after_exit();
}

// ---- from the first instruction on

static int output, errors; // where the monitor's go, while Bochs talks of itself

void board_processor_start(void) {
  fflush(stdout);
  dup2(output, STDOUT_FILENO);
  dup2(errors, STDERR_FILENO);
  machine_open(&m, &wanted);
  host_start = host_time();
  BX_MEM(0)->registerMemoryHandlers(NULL, read_memory, write_memory, direct_memory, 0, 0xFFFFFFFF);
  timer = bx_pc_system.register_timer_ticks(NULL, on_timer, 1000, false, true, "board");
}

// The processor has been reset: at the start, by CF9h, or by a triple fault. It has no APIC, as the board has none. At the
// start of a saved guest it goes on from there.
void board_processor_reset(unsigned) {
  bx_devices.pluginPicDevice = &pic;
  bx_devices.pluginDmaDevice = &dma;
  BX_CPU(0)->msr.apicbase = 0;
  BX_CPU(0)->lapic->set_base(0);
  if (m.processor) take_processor();
}

void board_processor_halted(void) {
  if (!BX_CPU(0)->get_IF()) end("halted with interrupts off");
}

// The words are the monitor's. Bochs gets its own: a processor, and the files without which it does not begin.
extern "C" int __real_main(int count, char **words);
extern "C" int __wrap_main(int count, char **words) {
  options_read(&wanted, count, words);
  enum { MOST_WORDS = 20 };
  char *copies[MOST_WORDS + 1] = {};
  const char *own[] = {words[0], "-q", "-f", "/dev/null", "cpu: model=p4_prescott_celeron_336, ips=50000000",
    "cpu: reset_on_triple_fault=1, ignore_bad_msrs=1, add_features=rdrand, exclude_features=xapic", "megs: 32",
    "romimage: file=/usr/share/seabios/bios.bin, options=none", "vgaromimage: file=/usr/share/seabios/vgabios-stdvga.bin",
    "display_library: nogui", "clock: sync=none", "log: /dev/null", "panic: action=fatal", "error: action=ignore",
    "info: action=ignore", "debug: action=ignore"};
  count = sizeof own / sizeof *own;
  for (int k = 0; k < count; k++) copies[k] = strdup(own[k]); // Bochs writes into its words
  output = dup(STDOUT_FILENO);
  errors = dup(STDERR_FILENO);
  if (!freopen("/dev/null", "w", stdout) || !freopen("/dev/null", "w", stderr)) return 1;
  setvbuf(stderr, NULL, _IONBF, 0); // as it was: what the monitor says is read while it runs
  return __real_main(count, copies);
}
