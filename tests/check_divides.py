#!/usr/bin/env python3
"""The coarse reader of whole numbers divides nothing, in the machine code of the library as it is built.

    python3 tests/check_divides.py                  target/lib/libcradlekeel.a
    python3 tests/check_divides.py --self-test      small listings, each with one fault, which must be found

No instruction of `ck_coarse_micro`, nor of any function that it comes to, divides, and all that it comes to is in the library, but for
memcpy and memset. That divisions are found where there are some is tried on `ck_read_xy`. tests/check_contracts.py reads the source for
the same, and leaves methods of the toolchain's library to this."""

import re
import subprocess
import sys
from pathlib import Path

sys.dont_write_bytecode = True

ARCHIVE = Path(__file__).resolve().parent.parent / "target" / "lib" / "libcradlekeel.a"
FUNCTION = re.compile(r"^[0-9a-f]+ <(?P<name>.+)>:$")
# A mnemonic that divides, perhaps after prefixes, for whole numbers, floats or vectors of them.
DIVIDES = re.compile(r"^ *[0-9a-f]+:\t(?:[\w.]+ )*?(?P<divides>\w*div\w*|fprem1?)\b")
# A name that an instruction refers to, of a function, in its own section or not, of a constant or of the C library.
REACHES = re.compile(r"R_X86_64_\w+\t(?:\.text\.)?(?P<name>.+?)(?:[-+]0x[0-9a-f]+)?$")
CONSTANTS = re.compile(r"\.LCPI|\.rodata")
OUTSIDE = ("memcpy", "memset")


def functions_in(listing):
    """What each function divides by and which names it comes to, as objdump -dr lists them."""
    found, here = {}, None
    for line in listing.splitlines():
        if start := FUNCTION.match(line):
            here = found.setdefault(start["name"], ([], set()))
        elif here and (division := DIVIDES.match(line)):
            here[0].append(division["divides"])
        elif here and (reached := REACHES.search(line)) and not CONSTANTS.match(reached["name"]):
            here[1].add(reached["name"])
    return found


def faults_from(found, name):
    """What divides, or is not in the library, in a function and all that it comes to; and the functions that were read."""
    names, faults = [name], []
    for reached in names:  # they become more as calls are found
        if reached in found:
            faults += ["`%s` has a `%s`" % (reached, division) for division in found[reached][0]]
            names += sorted(found[reached][1] - set(names))
        elif reached not in OUTSIDE:
            faults.append("it comes to `%s`, which is not in the library" % reached)
    return faults, [n for n in names if n in found]


# A function with a constant that comes to two others, and what is put in the place of a line of it.
LISTING = """
0000000000000000 <ck_coarse_micro>:
   0:\tmov    %rsi,%rax
   7:\tmovsd  0x0(%rip),%xmm0
\t\t\tb: R_X86_64_PC32\t.LCPI0_266-0x4
  16:\tcall   1b <ck_coarse_micro+0x1b>
\t\t\t17: R_X86_64_PLT32\t.text.<A as B<C, D>>::alone-0x4
  1b:\tcall   20 <ck_coarse_micro+0x20>
\t\t\t1c: R_X86_64_PLT32\tmemcpy-0x4

0000000000000000 <<A as B<C, D>>::alone>:
   0:\timul   %rax,%rcx
   7:\tret
"""
FAULTS = (
    ("imul   %rax,%rcx", "div    %rcx", "`<A as B<C, D>>::alone` has a `div`"),
    ("imul   %rax,%rcx", "idivl  0x8(%rsp)", "has a `idivl`"),
    ("imul   %rax,%rcx", "rex.W div %rcx", "has a `div`"),
    ("imul   %rax,%rcx", "data16 idiv %cx", "has a `idiv`"),
    ("imul   %rax,%rcx", "vdivpd %ymm1,%ymm0,%ymm0", "has a `vdivpd`"),
    ("imul   %rax,%rcx", "fprem1", "has a `fprem1`"),
    ("mov    %rsi,%rax", "divsd  %xmm1,%xmm0", "`ck_coarse_micro` has a `divsd`"),
    ("R_X86_64_PLT32\tmemcpy-0x4", "R_X86_64_PLT32\t__udivti3-0x4", "comes to `__udivti3`"),
    ("R_X86_64_PLT32\tmemcpy-0x4", "R_X86_64_REX_GOTPCRELX\tfmod-0x4", "comes to `fmod`"),
    ("R_X86_64_PC32\t.LCPI0_266-0x4", "R_X86_64_32S\t.data.table+0x40", "comes to `.data.table`"),
    ("R_X86_64_PC32\t.LCPI0_266-0x4", "R_X86_64_PC32\t.text+0x40", "comes to `.text`"),
)


def self_test():
    """Each fault is found where it is put in, and none where it is not."""
    assert faults_from(functions_in(LISTING), "ck_coarse_micro") == ([], ["ck_coarse_micro", "<A as B<C, D>>::alone"])
    for old, new, words in FAULTS:
        assert LISTING.count(old) == 1, old
        faults, _ = faults_from(functions_in(LISTING.replace(old, new)), "ck_coarse_micro")
        assert len(faults) == 1 and words in faults[0], (words, faults)
    print("check_divides: the self-test found all %d faults" % len(FAULTS))


def main():
    if sys.argv[1:] == ["--self-test"]:
        return self_test()
    if sys.argv[1:]:
        sys.exit(__doc__)
    listing = subprocess.run(["objdump", "-dr", "--no-show-raw-insn", str(ARCHIVE)], capture_output=True, text=True, check=True).stdout
    found = functions_in(listing)
    faults, read = faults_from(found, "ck_coarse_micro")
    for fault in faults:
        print("check_divides: ck_coarse_micro: " + fault, file=sys.stderr)
    if faults:
        sys.exit("check_divides: %d faults" % len(faults))
    if not faults_from(found, "ck_read_xy")[0]:
        sys.exit("check_divides: no division is found in what ck_read_xy comes to, where there are some")
    print("check_divides: none in the %d functions of ck_coarse_micro: %s" % (len(read), ", ".join(read)))


if __name__ == "__main__":
    main()
