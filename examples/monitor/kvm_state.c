/* A processor of KVM as bytes: what KVM tells of it, and the model-specific registers that can be read. */
#define _GNU_SOURCE
#include "kvm_state.h"
#include <linux/kvm.h>
#include <stdio.h>
#include <stdlib.h>
#include <string.h>
#include <sys/ioctl.h>

enum { MOST_MSRS = 512, XSAVE_BYTES = 4096 };

typedef struct state {
    struct kvm_regs regs;
    struct kvm_sregs sregs;
    struct kvm_xcrs xcrs;
    uint8_t xsave[XSAVE_BYTES];
    struct kvm_debugregs debug;
    struct kvm_vcpu_events events;
    uint32_t halted, msr_count;
    struct kvm_msr_entry msrs[MOST_MSRS];
} state;

/* One register as KVM reads and writes it: a struct kvm_msrs with one entry. */
typedef struct one_msr {
    uint32_t nmsrs, pad;
    struct kvm_msr_entry entry;
} one_msr;

static void ask(int cpu, unsigned long what, void *at, const char *name) {
    if (ioctl(cpu, what, at) >= 0) return;
    perror(name);
    exit(1);
}

static void save_msrs(int kvm, int cpu, state *s) {
    struct kvm_msr_list *list = calloc(1, sizeof *list + MOST_MSRS * sizeof *list->indices);
    if (!list) return;
    list->nmsrs = MOST_MSRS;
    ask(kvm, KVM_GET_MSR_INDEX_LIST, list, "KVM_GET_MSR_INDEX_LIST");
    for (uint32_t k = 0; k < list->nmsrs; k++) {
        one_msr one = {.nmsrs = 1, .entry.index = list->indices[k]};
        if (ioctl(cpu, KVM_GET_MSRS, &one) == 1) s->msrs[s->msr_count++] = one.entry;
    }
    free(list);
}

/* What this host's KVM does not let be written stays as it is. */
static void load_msrs(int cpu, const state *s) {
    for (uint32_t k = 0; k < s->msr_count && k < MOST_MSRS; k++) {
        one_msr one = {.nmsrs = 1, .entry = s->msrs[k]};
        ioctl(cpu, KVM_SET_MSRS, &one);
    }
}

size_t kvm_state_bytes(void) { return sizeof(state); }

void kvm_state_save(int kvm, int cpu, bool halted, uint8_t *into) {
    static state s;
    memset(&s, 0, sizeof s);
    ask(cpu, KVM_GET_REGS, &s.regs, "KVM_GET_REGS");
    ask(cpu, KVM_GET_SREGS, &s.sregs, "KVM_GET_SREGS");
    ask(cpu, KVM_GET_XCRS, &s.xcrs, "KVM_GET_XCRS");
    ask(cpu, KVM_GET_XSAVE, s.xsave, "KVM_GET_XSAVE");
    ask(cpu, KVM_GET_DEBUGREGS, &s.debug, "KVM_GET_DEBUGREGS");
    ask(cpu, KVM_GET_VCPU_EVENTS, &s.events, "KVM_GET_VCPU_EVENTS");
    s.halted = halted;
    save_msrs(kvm, cpu, &s);
    memcpy(into, &s, sizeof s);
}

bool kvm_state_load(int cpu, const uint8_t *from) {
    static state s;
    memcpy(&s, from, sizeof s);
    ask(cpu, KVM_SET_SREGS, &s.sregs, "KVM_SET_SREGS");
    ask(cpu, KVM_SET_XCRS, &s.xcrs, "KVM_SET_XCRS");
    ask(cpu, KVM_SET_XSAVE, s.xsave, "KVM_SET_XSAVE");
    load_msrs(cpu, &s);
    ask(cpu, KVM_SET_DEBUGREGS, &s.debug, "KVM_SET_DEBUGREGS");
    ask(cpu, KVM_SET_REGS, &s.regs, "KVM_SET_REGS");
    ask(cpu, KVM_SET_VCPU_EVENTS, &s.events, "KVM_SET_VCPU_EVENTS");
    return s.halted;
}
