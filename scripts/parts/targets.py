"""The targets of the library for C, as clang has them."""

from collections import namedtuple

# `bits` are those of an address; `words` are for clang, beside the triple. `is_bare`: there is no operating system, and so no shared library.
Target = namedtuple("Target", "triple layout bits is_bare words")

ARM = "e-m:e-p:32:32-Fi8-i64:64-v128:64:128-a:0:32-n32-S64"

TARGETS = {
    "x86_64": Target("x86_64-unknown-linux-gnu", "e-m:e-p270:32:32-p271:32:32-p272:64:64-i64:64-i128:128-f80:128-n8:16:32:64-S128", 64, False, ()),
    "aarch64": Target("aarch64-unknown-linux-gnu", "e-m:e-p270:32:32-p271:32:32-p272:64:64-i8:8:32-i16:16:32-i64:64-i128:128-n32:64-S128-Fn32", 64, False, ()),
    "riscv64": Target("riscv64-unknown-linux-gnu", "e-m:e-p:64:64-i64:64-i128:128-n32:64-S128", 64, False, ("-march=rv64gc", "-mabi=lp64d")),
    # Debian's armhf: ARMv7-A in Thumb-2, without NEON.
    "armv7": Target("thumbv7-unknown-linux-gnueabihf", ARM, 32, False, ("-mfpu=vfpv3-d16",)),
    # Cortex-M4 and M7, and Cortex-M33 and above. No call has a float, so one object serves each ABI of floats.
    "thumbv7em": Target("thumbv7em-unknown-none-eabi", ARM, 32, True, ("-mcpu=cortex-m4", "-mfloat-abi=soft", "-mfpu=none")),
    "thumbv8m": Target("thumbv8m.main-unknown-none-eabi", ARM, 32, True, ("-mfloat-abi=soft", "-mfpu=none")),
}
