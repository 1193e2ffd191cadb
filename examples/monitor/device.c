/* The devices that were added, and what they keep, as bytes: for each that is used its flag, a zero and its state. */
#include "device.h"
#include <string.h>

static device *first;

device *device_first(void) { return first; }

void device_add(device *d) {
    device **at = &first;
    while (*at && strcmp((*at)->flag, d->flag) < 0) at = &(*at)->next;
    d->next = *at;
    *at = d;
}

device *device_find(const char *flag) {
    for (device *d = first; d; d = d->next)
        if (!strcmp(d->flag, flag)) return d;
    return NULL;
}

device *device_from(device *d) {
    while (d && !d->is_used) d = d->next;
    return d;
}

bool devices_identify(void) {
    for (EACH_DEVICE(d))
        if (d->identify) return true;
    return false;
}

size_t devices_bytes(void) {
    size_t bytes = 0;
    for (EACH_DEVICE(d)) bytes += strlen(d->flag) + 1 + d->bytes;
    return bytes;
}

void devices_save(uint8_t *into) {
    for (EACH_DEVICE(d)) {
        size_t flag = strlen(d->flag) + 1;
        memcpy(into, d->flag, flag);
        if (d->bytes) memcpy(into + flag, d->state, d->bytes);
        into += flag + d->bytes;
    }
}

bool devices_load(const uint8_t *from, size_t bytes) {
    for (device *d = first; d; d = d->next) d->is_used = false;
    while (bytes > 0) {
        const uint8_t *end = memchr(from, 0, bytes);
        device *d = end ? device_find((const char *)from) : NULL;
        size_t flag = end ? (size_t)(end - from) + 1 : 0;
        if (!d || bytes - flag < d->bytes) return false;
        d->is_used = true;
        if (d->bytes) memcpy(d->state, from + flag, d->bytes);
        from += flag + d->bytes;
        bytes -= flag + d->bytes;
    }
    return true;
}
