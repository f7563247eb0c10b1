//! What a lent table holds before a call.

use rehearsal_model::module::Module;

/// No module after power-up, nor one that a run leaves.
pub const LENT: Module = Module {
    registers: [0xA5, 0x5A, 0xA5, 0x5A, 0xA5, 0x5A],
    latch: false,
    enable: true,
    phase: false,
    seen: true,
    scl: false,
    sda: true,
    stretch: true,
};
