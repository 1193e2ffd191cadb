/* kvm_state.h: a processor of KVM as bytes. */
#ifndef KVM_STATE_H
#define KVM_STATE_H
#include <stdbool.h>
#include <stddef.h>
#include <stdint.h>

/* How many bytes every processor takes. */
size_t kvm_state_bytes(void);
/* Writes the processor, which is not inside KVM_RUN and has no access open; halted is the caller's to keep. */
void kvm_state_save(int kvm, int cpu, bool halted, uint8_t *into);
/* Sets a processor that has its CPUID. Whether it was halted. Ends the process where KVM refuses. */
bool kvm_state_load(int cpu, const uint8_t *from);

#endif
