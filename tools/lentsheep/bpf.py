"""Instructions of classic BPF in words: what each one does, and what the actions of seccomp(2) are called."""
from __future__ import annotations

from .values import Instruction

# Offsets of seccomp_data, seccomp(2); each argument has a low and a high word.
_FIELDS = {0: "nr", 4: "arch", 8: "ip low", 12: "ip high"}
_FIELDS.update({16 + 8 * at: f"arg {at} low" for at in range(6)})
_FIELDS.update({20 + 8 * at: f"arg {at} high" for at in range(6)})
_MATH = {0x00: "+", 0x10: "-", 0x20: "*", 0x30: "/", 0x40: "|", 0x50: "&", 0x60: "<<", 0x70: ">>", 0xA0: "^"}
_TESTS = {0x10: "==", 0x20: ">", 0x30: ">=", 0x40: "&"}
#: Actions by the upper half of what a program returns.
ACTIONS = {
    0x80000000: "kill-process", 0x00000000: "kill-thread", 0x00030000: "trap", 0x00050000: "errno", 0x7FC00000: "notify",
    0x7FF00000: "trace", 0x7FFC0000: "log", 0x7FFF0000: "allow",
}  # fmt: skip
# AUDIT_ARCH_* of linux/audit.h.
_ARCHITECTURES = {0xC000003E: "x86-64", 0x40000003: "i386", 0xC00000B7: "aarch64"}


def action_name(result: int) -> str:
    """The action of a program's result, as `allow` or `errno 1`."""
    name = ACTIONS.get(result & 0xFFFF0000, "kill-process")
    return f"{name} {result & 0xFFFF}" if name in ("errno", "trap", "trace") else name


def field_name(offset: int) -> str:
    """The word of the call's data at an offset."""
    return _FIELDS.get(offset, f"data[{offset}]")


def value_name(field: str, value: int) -> str:
    """A number that a field is compared with; architectures go by their names."""
    return _ARCHITECTURES.get(value, hex(value)) if field == "arch" else str(value)


def described(instruction: Instruction) -> str:
    """An instruction in words; `?` and its code where it is none."""
    code, k = instruction.code, instruction.k
    operand = "X" if code & 0x08 else str(k)
    simple = {
        0x20: f"A = {field_name(k)}", 0x80: "A = 64", 0x81: "X = 64", 0x00: f"A = {k}", 0x01: f"X = {k}", 0x60: f"A = M[{k}]",
        0x61: f"X = M[{k}]", 0x02: f"M[{k}] = A", 0x03: f"M[{k}] = X", 0x84: "A = -A", 0x07: "X = A", 0x87: "A = X",
        0x05: f"skip {k}", 0x06: f"end {action_name(k)}", 0x16: "end A",
    }  # fmt: skip
    if code in simple:
        return simple[code]
    if code & 0x07 == 0x04 and code & 0xF0 in _MATH:
        return f"A = A {_MATH[code & 0xF0]} {operand}"
    if code & 0x07 == 0x05 and code & 0xF0 in _TESTS:
        return f"if A {_TESTS[code & 0xF0]} {operand} skip {instruction.jt} else skip {instruction.jf}"
    return f"? {code:#x}"
