/* A skeleton of an adapter for tools/conform: your monitor is asked by four functions, and this is the rest. docs/CONFORM.md
 * has the protocol. examples/adapter-board.c fills them over libboard:
 *
 *     cc -o adapter examples/adapter.c examples/adapter-board.c $(pkg-config --cflags --libs board)
 *     tools/conform --adapter ./adapter
 *
 * Each gives true where it is done, and false for what your monitor cannot do. */
#include <inttypes.h>
#include <stdbool.h>
#include <stdio.h>
#include <string.h>

/* A new machine, as after power-on, in place of the one before; the disk is "" where there is none. */
bool monitor_begin(unsigned mib, const char *rom, const char *disk);
/* Of memory ("r", or "f" where code is fetched) or a port ("in"): 1, 2, 4 or 8 bytes, the low one first. */
bool monitor_read(const char *word, uint32_t place, int bytes, bool smm, uint64_t *value);
/* Of memory ("w") or a port ("out"). */
bool monitor_write(const char *word, uint32_t place, int bytes, bool smm, uint64_t value);
/* What comes from outside: "irq" LINE LEVEL, "ack" with the vector as its value, "pulse" COUNT, "second", "wire" .. */
bool monitor_outside(const char *word, unsigned first, unsigned second, uint64_t *value);

static void answer(const char *line) {
    char word[12] = "", width = 0;
    unsigned place = 0, first = 0, second = 0;
    uint64_t value = 0;
    int fields = sscanf(line, "%11s %c %x %" SCNx64, word, &width, &place, &value);
    const char *letters = "bwdq", *letter = width ? strchr(letters, width) : NULL;
    int bytes = fields >= 3 && letter ? 1 << (letter - letters) : 0;
    bool smm = strstr(line, " smm"), done;
    if (!strcmp(word, "r") || !strcmp(word, "f") || !strcmp(word, "in")) {
        if (monitor_read(word, place, bytes, smm, &value)) printf("%0*" PRIX64 "\n", 2 * bytes, value);
        else puts("?");
        return;
    }
    if (!strcmp(word, "w") || !strcmp(word, "out")) done = monitor_write(word, place, bytes, smm, value);
    else sscanf(line, "%*s %u %u", &first, &second), done = monitor_outside(word, first, second, &value);
    if (done && !strcmp(word, "ack")) printf("%02" PRIX64 "\n", value);
    else puts(done ? "-" : "?");
}

int main(void) {
    char line[4200], rom[4096] = "", disk[4096] = "";
    unsigned mib = 0;
    bool is_ready = false, has_cards = false, is_begun = false;
    while (fgets(line, sizeof line, stdin)) {
        line[strcspn(line, "\n")] = 0;
        if (!strcmp(line, "board 2")) disk[0] = 0, has_cards = is_begun = false;
        else if (is_begun && !strcmp(line, "end")) puts("end"), fflush(stdout);
        else if (is_begun && is_ready) answer(line);
        else if (is_begun) puts("?");
        else if (!strcmp(line, "phase")) is_begun = true, is_ready = !has_cards && monitor_begin(mib, rom, disk);
        else if (!strncmp(line, "card ", 5)) has_cards = true;
        else if (sscanf(line, "memory %u", &mib) != 1 && sscanf(line, "rom %4095[^\n]", rom) != 1)
            sscanf(line, "disk %4095[^\n]", disk);
    }
    return 0;
}
