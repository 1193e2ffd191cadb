/* options.h: the words of a monitor's command line. */
#ifndef OPTIONS_H
#define OPTIONS_H
#include <stdbool.h>
#include <stdint.h>
#ifdef __cplusplus
extern "C" {
#endif

/* The card of --virtio: its device, and log2 of its ports. Those of --card have the devices from ROM_DEVICE on. */
enum { MOST_MIB = 512, VIRTIO_DEVICE = 3, VIRTIO_BASE_BITS = 6, ROM_DEVICE = 4, MOST_ROM_CARDS = 4 };

typedef struct options {
    const char *rom;
    const char *disk;      /* NULL: none */
    const char *virtio;    /* the file of a virtio block card, or NULL */
    const char *card_rom[MOST_ROM_CARDS]; /* files of expansion ROMs, a card for each */
    uint32_t rom_cards;
    const char *save;      /* where a guest that runs is written on Ctrl-A s, or NULL */
    const char *load;      /* the file of such a guest, which goes on, or NULL */
    const char *keep_disk; /* the file that has the disk as the guest has written it, or NULL */
    const char *log;       /* the front of the names of script and log, or NULL */
    uint32_t mib;
    uint32_t seconds; /* of the host's time after which the monitor ends; 0: none */
    uint32_t speed;   /* instructions a microsecond, where the processor's own pace is the time (Bochs) */
    bool explain;
    bool keyboard; /* an 8042 stands in the board's socket */
    bool type_keys; /* what is typed are keys of its keyboard, and not bytes for COM1 */
    bool fw_cfg; /* QEMU's fw_cfg tells of memory and disk, and the clock's bytes do not */
    bool bochs_bios; /* what Bochs's BIOS takes for given: the disk is decoded, words 4 and 5 of IDENTIFY DEVICE are not 0 */
    bool text;   /* fw_cfg says that there is no picture */
    bool quiet;  /* what the firmware says on port 402h is not shown */
    bool timing; /* the steps' time is measured */
    bool nothing; /* once the guest runs, all exits are answered by nothing: what the board's answers cost */
} options;

/* Ends the process with the usage text where a word is none. */
void options_read(options *o, int count, char **words);

#ifdef __cplusplus
}
#endif
#endif
