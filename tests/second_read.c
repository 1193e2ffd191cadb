/* Preloaded into a monitor: at its second pread it is asked to end, by SIGTERM, and at its end it tells how many preads
 * there were. */
#define _GNU_SOURCE
#include <signal.h>
#include <stdio.h>
#include <sys/syscall.h>
#include <sys/types.h>
#include <unistd.h>

static long count;

ssize_t pread(int file, void *into, size_t bytes, off_t place) {
    if (++count == 2) kill(getpid(), SIGTERM);
    return syscall(SYS_pread64, file, into, bytes, place);
}

__attribute__((destructor)) static void tell(void) { fprintf(stderr, "preads: %ld\n", count); }
