#include "device.h"
#include "options.h"
#include <errno.h>
#include <stdio.h>
#include <stdlib.h>
#include <string.h>

enum { MOST_SCRIPT_MIB = 64, MOST_SECONDS = 1000000, MOST_SPEED = 1000 };

static const char usage[] =
    "usage: monitor-PROCESSOR [OPTION VALUE | FLAG]..\n"
    "  --rom FILE        the BIOS (/usr/share/seabios/bios.bin)\n"
    "  --disk FILE       the disk as it begins; none without this\n"
    "  --keep-disk FILE  the disk as the guest has written it, at any moment; it may be that of --disk\n"
    "  --virtio FILE     a virtio block card over a file of any size, written through\n"
    "  --card rom=FILE   a card with this expansion ROM, which it is by the ROM's PCI data; up to four\n"
    "  --save FILE       where Ctrl-A s, or the signal USR1, writes the guest as it runs\n"
    "  --load FILE       goes on with a guest that was saved: memory, disk and devices are those of the file\n"
    "  --memory MIB      1 to 512 (8); 1 to 64 with --log\n"
    "  --seconds N       ends after N seconds\n"
    "  --log NAME        writes NAME.script and NAME.log, for `board check`, with NAME.rom and NAME.disk\n"
    "  --explain         tells each access that nobody answered, an empty socket or a register denied, and which\n"
    "  --keyboard        a keyboard controller at ports 60h and 64h, and port 92h\n"
    "  --type-keys       with --keyboard what is typed are its keys, and not bytes for COM1\n"
    "  --fw-cfg          QEMU's fw_cfg at ports 510h and 511h, and nothing of memory in the clock's bytes\n"
    "  --text            with --fw-cfg SeaBIOS takes COM1 for its screen and keyboard\n"
    "  --bochs-bios      what Bochs's BIOS wants: the disk is decoded, and words 4 and 5 of IDENTIFY DEVICE are not 0\n"
    "  --quiet           leaves out what the firmware says on port 402h\n"
    "  --timing          measures the board's steps\n"
    "  --speed N         Bochs: instructions a microsecond (50)\n"
    "  --nothing         answers every exit with nothing, to see what the board's answers cost\n"
    "and, where they were built in:\n";

static _Noreturn void refuse(const char *word) {
    fprintf(stderr, "monitor: %s\n%s", word, usage);
    for (const device *d = device_first(); d; d = d->next) fprintf(stderr, "  %-17s %s\n", d->flag, d->usage);
    fprintf(stderr, "Ctrl-A x ends it, Ctrl-A f tells its figures.\n");
    exit(2);
}

static uint32_t number(const char *word, uint32_t most) {
    char *end;
    errno = 0;
    unsigned long value = strtoul(word, &end, 10);
    if (errno || end == word || *end || value < 1 || value > most) refuse(word);
    return (uint32_t)value;
}

/* A flag of one word. */
static bool take_flag(options *o, const char *word) {
    device *d = device_find(word);
    if (d) d->is_used = true;
    else if (!strcmp(word, "--explain")) o->explain = true;
    else if (!strcmp(word, "--keyboard")) o->keyboard = true;
    else if (!strcmp(word, "--type-keys")) o->type_keys = true;
    else if (!strcmp(word, "--fw-cfg")) o->fw_cfg = true;
    else if (!strcmp(word, "--bochs-bios")) o->bochs_bios = true;
    else if (!strcmp(word, "--text")) o->text = true;
    else if (!strcmp(word, "--quiet")) o->quiet = true;
    else if (!strcmp(word, "--timing")) o->timing = true;
    else if (!strcmp(word, "--nothing")) o->nothing = true;
    else return false;
    return true;
}

/* A card, by what it has: its expansion ROM. */
static void take_card(options *o, const char *value) {
    static const char rom[] = "rom=";
    if (strncmp(value, rom, sizeof rom - 1) || o->rom_cards == MOST_ROM_CARDS) refuse(value);
    o->card_rom[o->rom_cards++] = value + sizeof rom - 1;
}

static bool take_option(options *o, const char *word, const char *value) {
    if (!strcmp(word, "--rom")) o->rom = value;
    else if (!strcmp(word, "--disk")) o->disk = value;
    else if (!strcmp(word, "--keep-disk")) o->keep_disk = value;
    else if (!strcmp(word, "--virtio")) o->virtio = value;
    else if (!strcmp(word, "--card")) take_card(o, value);
    else if (!strcmp(word, "--save")) o->save = value;
    else if (!strcmp(word, "--load")) o->load = value;
    else if (!strcmp(word, "--log")) o->log = value;
    else if (!strcmp(word, "--memory")) o->mib = number(value, MOST_MIB);
    else if (!strcmp(word, "--seconds")) o->seconds = number(value, MOST_SECONDS);
    else if (!strcmp(word, "--speed")) o->speed = number(value, MOST_SPEED);
    else return false;
    return true;
}

void options_read(options *o, int count, char **words) {
    *o = (options){.rom = "/usr/share/seabios/bios.bin", .mib = 8, .speed = 50};
    for (int k = 1; k < count; k++) {
        if (take_flag(o, words[k])) continue;
        if (k + 1 == count || !take_option(o, words[k], words[k + 1])) refuse(words[k]);
        k++;
    }
    if (o->type_keys && !o->keyboard) refuse("--type-keys: only with --keyboard");
    if (o->text && !o->fw_cfg) refuse("--text: only with --fw-cfg");
    if (o->log && (o->virtio || o->rom_cards)) refuse("--log: not with a card: a script knows none that says what it is");
    if (o->log && o->load) refuse("--log: not with --load: a log begins at power-on");
    if (o->log && o->mib > MOST_SCRIPT_MIB) refuse("--log: a script has at most 64 MiB");
}
