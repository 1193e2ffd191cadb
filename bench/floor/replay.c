/* What `board replay` does, by hand and without a proof: a floor for its instructions.
 *
 *   replay SCRIPT      the log, on standard output
 *
 * It has the statements of the rows `in-turn`, `ports`, `looks` and `windows` of bench/script_rows.py, over the board
 * of these rows. As `board` it reads the whole script, checks each line, and puts the log after all is done. Exit
 * status: 1 no such file or no memory; 2 wrong words; 3 a line that it does not know. */
#include <stdbool.h>
#include <stdint.h>
#include <stdio.h>
#include <stdlib.h>
#include <string.h>

enum {
    MIB = 1 << 20, DRAM_END = 8 * MIB, ROM_BYTES = 1 << 16, CARD_BYTES = MIB,
    VGA = 0xA0000, WINDOWS = 0xC0000, WINDOW = 0x4000, LAST_WINDOW = 0xF0000,
    ADDRESS = 0xCF8, DATA = 0xCFC,               /* the ports of configuration space */
    HOST = 0x000000, CARD = 0x001000,            /* functions, as the address has them */
    PAM0 = 0x59, PAM6 = 0x5F, COMMAND = 0x04, MEMORY_ENABLED = 2,
    MOST_CPUS = 8, MOST_RANGES = 32,
    LONGEST_LINE = 96                            /* of the log, for a line of at least SHORTEST bytes in the script */
};
#define ROM_START 0xFFFF0000u
#define CONFIG_BITS 0x80FFFFFCu                  /* those that the configuration address keeps */
#define FUNCTION_BITS 0x80FFFF00u

typedef enum { FETCH, READ, WRITE, KINDS } kind;
typedef enum { TO_DRAM, TO_ROM, TO_CARD, TO_VGA, TO_SHADOW, TO_NOBODY } area;
typedef struct { uint32_t first, last; area area; } range;
typedef struct { const uint8_t *at; char *to; } job;   /* where the script is read, and where the log is put */

static const struct { char text[8], bytes; } names[] = {
    {"dram:0", 6}, {"rom", 3}, {"card:2.0", 8}, {"card:2.7", 8}, {"shadow:0", 8}, {"abort", 5},
};
static const uint8_t *script;
static uint8_t dram[DRAM_END], rom[ROM_BYTES], card[CARD_BYTES];
static uint8_t host[256], command;
static uint32_t address, card_base, version;
static area windows[KINDS][13];                  /* C0000 to EFFFF by 16 KiB, and F0000 to FFFFF */
static range ranges[KINDS][MOST_RANGES];         /* built for a look, where the map has changed since the last */
static int counts[KINDS];
static uint32_t built = UINT32_MAX;              /* the version of `ranges` */

/* ---- text ---- */

static uint8_t values[256];                      /* of a digit its value and one; 0 for what is none */
static char pairs[256][2], fours[10000][4];      /* a byte in hexadecimal, and a number in decimal digits */

static void make_tables(void) {
    for (int n = 0; n < 16; n++) values[(uint8_t)"0123456789ABCDEF"[n]] = (uint8_t)(n + 1);
    for (int n = 0; n < 256; n++) {
        pairs[n][0] = "0123456789ABCDEF"[n >> 4];
        pairs[n][1] = "0123456789ABCDEF"[n & 15];
    }
    for (int n = 0; n < 10000; n++) {
        for (int place = 3, rest = n; place >= 0; place--, rest /= 10) fours[n][place] = (char)('0' + rest % 10);
    }
}

static _Noreturn void refuse(const uint8_t *at) {
    fprintf(stderr, "replay: not known, from byte %td on\n", at - script);
    exit(3);
}

/* Puts a text that is written out in the call. */
#define put(to, text) ((char *)memcpy(to, text, sizeof text - 1) + sizeof text - 1)

static inline char *put_byte(char *to, uint8_t value) {
    memcpy(to, pairs[value], 2);
    return to + 2;
}

static inline char *put_long(char *to, uint32_t value) {
    for (int place = 24; place >= 0; place -= 8) to = put_byte(to, (uint8_t)(value >> place));
    return to;
}

static inline char *put_name(char *to, area area) {
    memcpy(to, names[area].text, sizeof names->text);
    return to + names[area].bytes;
}

static char *put_number(char *to, uint32_t value) {
    if (value >= 10000) {
        to = put_number(to, value / 10000);
        memcpy(to, fours[value % 10000], 4);
        return to + 4;
    }
    int skipped = value < 10 ? 3 : value < 100 ? 2 : value < 1000 ? 1 : 0;
    memcpy(to, fours[value] + skipped, 4);
    return to + 4 - skipped;
}

/* A number of so many digits, or a refusal. */
static inline uint32_t hex(const uint8_t *from, int digits) {
    uint32_t value = 0, is_wrong = 0;
    for (int n = 0; n < digits; n++) {
        uint32_t digit = values[from[n]] - 1u;
        is_wrong |= digit;
        value = value << 4 | (digit & 15);
    }
    if (is_wrong >> 4) refuse(from);
    return value;
}

/* Whether four bytes stand there. */
static inline bool begins(const uint8_t *at, const char *four) { return memcmp(at, four, 4) == 0; }

/* Goes past so many bytes of the line and its end, and puts them into the log. */
static inline void pass(job *it, int bytes) {
    if (it->at[bytes] != '\n') refuse(it->at);
    memcpy(it->to, it->at, (size_t)bytes);
    it->to += bytes;
    it->at += bytes + 1;
}

/* ---- the board ---- */

static area of_window(kind how, uint32_t window) {
    uint8_t pam = window == 12 ? host[PAM0] : host[PAM0 + 1 + window / 2];
    bool is_open = (window == 12 || window % 2 ? pam >> 4 : pam) & (how == WRITE ? 2 : 1);
    return is_open ? TO_SHADOW : window == 12 ? TO_ROM : TO_NOBODY;
}

static void set_window(uint32_t window) {
    for (kind how = FETCH; how < KINDS; how++) windows[how][window] = of_window(how, window);
}

static inline uint32_t window_at(uint32_t addr) { return addr >= LAST_WINDOW ? 12 : (addr - WINDOWS) / WINDOW; }

static inline area area_at(kind how, uint32_t addr) {
    if (addr < VGA) return TO_DRAM;
    if (addr < WINDOWS) return command & MEMORY_ENABLED ? TO_VGA : TO_NOBODY;
    if (addr < MIB) return windows[how][window_at(addr)];
    if (addr < DRAM_END) return TO_DRAM;
    if (addr >= ROM_START) return TO_ROM;
    return command & MEMORY_ENABLED && addr - card_base < CARD_BYTES ? TO_CARD : TO_NOBODY;
}

/* The byte behind an address, or none. */
static inline uint8_t *byte_at(area area, uint32_t addr) {
    switch (area) {
    case TO_DRAM: case TO_SHADOW: return &dram[addr % DRAM_END];
    case TO_CARD: case TO_VGA: return &card[addr % CARD_BYTES];
    case TO_ROM: return &rom[addr % ROM_BYTES];
    default: return NULL;
    }
}

/* Appends a range up to `last`, or lengthens the one before where the same answers. */
static void append(kind how, uint32_t last, area area) {
    range *end = &ranges[how][counts[how]];
    if (counts[how] > 0 && end[-1].area == area) {
        end[-1].last = last;
        return;
    }
    *end = (range){counts[how] > 0 ? end[-1].last + 1 : 0, last, area};
    counts[how]++;
}

static void build(void) {
    bool has_card = command & MEMORY_ENABLED;
    for (kind how = FETCH; how < KINDS; how++) {
        counts[how] = 0;
        append(how, VGA - 1, TO_DRAM);
        append(how, WINDOWS - 1, has_card ? TO_VGA : TO_NOBODY);
        for (uint32_t window = 0; window < 12; window++)
            append(how, WINDOWS + (window + 1) * WINDOW - 1, windows[how][window]);
        append(how, MIB - 1, windows[how][12]);
        append(how, DRAM_END - 1, TO_DRAM);
        if (has_card) append(how, card_base - 1, TO_NOBODY);
        if (has_card) append(how, card_base + CARD_BYTES - 1, TO_CARD);
        append(how, ROM_START - 1, TO_NOBODY);
        append(how, UINT32_MAX, TO_ROM);
    }
    built = version;
}

static const range *range_at(kind how, uint32_t addr) {
    if (built != version) build();
    const range *low = ranges[how];
    for (int left = counts[how]; left > 1;) {
        int half = left / 2;
        bool is_above = low[half].first <= addr;
        low += is_above ? half : 0;
        left = is_above ? left - half : half;
    }
    return low;
}

/* Writes a byte of configuration space that the rows write. */
static void configure(const job *it, uint32_t off, uint8_t value) {
    if ((address & FUNCTION_BITS) == (0x80000000u | CARD) && off == COMMAND) {
        command = value & 3;
    } else if ((address & FUNCTION_BITS) == (0x80000000u | HOST) && off >= PAM0 && off <= PAM6) {
        host[off] = value & (off == PAM0 ? 0x30 : 0x33);
        uint32_t first = off == PAM0 ? 12 : (off - PAM0 - 1) * 2;
        set_window(first);
        if (off != PAM0) set_window(first + 1);
    } else {
        refuse(it->at);
    }
    version++;
}

/* ---- statements ---- */

static void access_byte(job *it) {
    const uint8_t *line = it->at;
    kind how = line[0] == 'r' ? READ : line[0] == 'w' ? WRITE : FETCH;
    uint32_t addr = hex(line + 4, 8);
    area area = area_at(how, addr);
    uint8_t *byte = byte_at(area, addr);
    if (area == TO_NOBODY || (how == WRITE && area == TO_ROM)) refuse(it->at);   /* the log would name a register */
    if (how == WRITE) {
        if (line[12] != ' ') refuse(it->at);
        *byte = (uint8_t)hex(line + 13, 2);
        pass(it, 15);
        it->to = put(it->to, " = - ");
    } else {
        pass(it, 12);
        it->to = put(it->to, " = ");
        it->to = put_byte(it->to, *byte);
        *it->to++ = ' ';
    }
    it->to = put_name(it->to, area);
    it->to = put(it->to, " -\n");
}

/* Puts the register of configuration space that a port reached. */
static void put_register(job *it, uint32_t off) {
    bool is_card = (address & FUNCTION_BITS) == (0x80000000u | CARD);
    it->to = is_card ? put(it->to, " config:02.0.") : put(it->to, " config:00.0.");
    it->to = put_byte(it->to, (uint8_t)off);
    it->to = put(it->to, " -\n");
}

/* The offset that a port of the data register reaches. */
static uint32_t offset_of(const job *it, uint32_t port) {
    if (port - DATA > 3) refuse(it->at);
    return (address & 0xFC) | (port & 3);
}

static void in_byte(job *it) {
    uint32_t off = offset_of(it, hex(it->at + 5, 4));
    if ((address & FUNCTION_BITS) != (0x80000000u | HOST)) refuse(it->at);
    pass(it, 9);
    it->to = put(it->to, " = ");
    it->to = put_byte(it->to, host[off]);
    put_register(it, off);
}

static void out_byte(job *it) {
    uint32_t off = offset_of(it, hex(it->at + 6, 4));
    if (it->at[10] != ' ') refuse(it->at);
    configure(it, off, (uint8_t)hex(it->at + 11, 2));
    pass(it, 13);
    it->to = put(it->to, " = -");
    put_register(it, off);
}

static void out_long(job *it) {
    uint32_t port = hex(it->at + 6, 4), value = hex(it->at + 11, 8);
    if (it->at[10] != ' ') refuse(it->at);
    pass(it, 19);
    it->to = put(it->to, " = -");
    if (port == ADDRESS) {
        address = value & CONFIG_BITS;
        it->to = put(it->to, " confadd -\n");
        return;
    }
    if (address != (0x80000010u | CARD) || value % CARD_BYTES) refuse(it->at);
    card_base = value;
    version++;
    put_register(it, 0x10);
}

static void look(job *it) {
    uint8_t letter = it->at[5];
    kind how = letter == 'f' ? FETCH : letter == 'r' ? READ : WRITE;
    if ((how == WRITE && letter != 'w') || it->at[6] != ' ') refuse(it->at);
    const range *found = range_at(how, hex(it->at + 7, 8));
    pass(it, 15);
    it->to = put(it->to, " = ");
    it->to = put_number(it->to, version);
    *it->to++ = ' ';
    it->to = put_long(it->to, found->first);
    *it->to++ = ' ';
    it->to = put_long(it->to, found->last);
    *it->to++ = ' ';
    it->to = put_name(it->to, found->area);
    *it->to++ = '\n';
}

static void statement(job *it) {
    static uint32_t number, of_cpu[MOST_CPUS];
    uint32_t cpu = it->at[0] - (uint32_t)'0';
    if (cpu >= MOST_CPUS || it->at[1] != ' ') refuse(it->at);
    it->to = put_number(it->to, ++number);
    *it->to++ = ' ';
    *it->to++ = (char)('0' + cpu);
    *it->to++ = '.';
    it->to = put_number(it->to, ++of_cpu[cpu]);
    *it->to++ = ' ';
    it->at += 2;
    if (begins(it->at, "r b ") || begins(it->at, "w b ") || begins(it->at, "f b ")) access_byte(it);
    else if (begins(it->at, "in b") && it->at[4] == ' ') in_byte(it);
    else if (begins(it->at, "out ") && it->at[4] == 'b' && it->at[5] == ' ') out_byte(it);
    else if (begins(it->at, "out ") && it->at[4] == 'd' && it->at[5] == ' ') out_long(it);
    else if (begins(it->at, "look") && it->at[4] == ' ') look(it);
    else refuse(it->at);
}

/* The whole file with zeros behind it, or an end with 1. */
static uint8_t *read_whole(const char *name, size_t *bytes) {
    FILE *file = fopen(name, "rb");
    if (!file || fseek(file, 0, SEEK_END)) exit(1);
    long size = ftell(file);
    uint8_t *into = size < 0 ? NULL : calloc(1, (size_t)size + LONGEST_LINE);
    rewind(file);
    if (!into || fread(into, 1, (size_t)size, file) != (size_t)size) exit(1);
    fclose(file);
    *bytes = (size_t)size;
    return into;
}

int main(int argc, char **argv) {
    if (argc != 2) return 2;
    size_t bytes;
    script = read_whole(argv[1], &bytes);
    const uint8_t *end = script + bytes, *first = (const uint8_t *)strstr((const char *)script, "\nphase\n");
    enum { SHORTEST = 12 };                      /* bytes of a line */
    char *log = malloc(bytes / SHORTEST * LONGEST_LINE + LONGEST_LINE);
    if (!log) return 1;
    make_tables();
    for (uint32_t n = 0; n < ROM_BYTES; n++) rom[n] = (uint8_t)n;
    for (uint32_t window = 0; window < 13; window++) set_window(window);
    job it = {first ? first + 1 : end, put(log, "access log 1\n")};
    while (it.at < end) {
        if (it.at[0] != 'p') statement(&it);
        else if (begins(it.at, "phas") && begins(it.at + 2, "ase\n")) it.at += 6;
        else refuse(it.at);
    }
    size_t all = (size_t)(it.to - log);
    return fwrite(log, 1, all, stdout) == all && !fflush(stdout) ? 0 : 1;
}
