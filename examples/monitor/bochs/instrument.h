/* Bochs with the board: the hooks that `--enable-instrumentation=instrument/board` compiles into Bochs's processor. Its
 * ports are the board's, and it starts and resets with the machine. All other hooks are empty, as in a Bochs without any. */
#undef BX_INSTRUMENTATION
#define BX_INSTRUMENTATION 0
#include "../stubs/instrument.h"

Bit32u board_port_in(Bit16u port, unsigned bytes);
void board_port_out(Bit16u port, Bit32u value, unsigned bytes);
void board_processor_start(void);
void board_processor_reset(unsigned type);
void board_processor_halted(void);

/* bochs.h has sent these to Bochs's own devices. */
#undef BX_INP
#undef BX_OUTP
#define BX_INP(port, bytes) board_port_in((port), (bytes))
#define BX_OUTP(port, value, bytes) board_port_out((port), (value), (bytes))

#undef BX_INSTR_INITIALIZE
#undef BX_INSTR_RESET
#undef BX_INSTR_HLT
#define BX_INSTR_INITIALIZE(cpu_id) board_processor_start()
#define BX_INSTR_RESET(cpu_id, type) board_processor_reset(type)
#define BX_INSTR_HLT(cpu_id) board_processor_halted()
