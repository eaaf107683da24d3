#!/usr/bin/env python3
"""Reads the object code of a static library and fails on what an Arm exit path cannot run.

usage: tests/object_code.py FILE    an archive or an object

Refused are: an instruction with a vector or floating register, a system instruction that is neither a hint, a barrier nor a trap, a word of
code that is no instruction, an access at a distance that is no multiple of its size (as compiled where unaligned accesses are fine; those
by a register that is not aligned are not seen), a relocation that is not direct (by a table of addresses, or in a thread's own data), a
symbol that no member defines, an archive whose index is not of what it exports, an object that is not for Arm, and a file without code.
Data between instructions is told by the mapping symbols $x and $d.
"""
import struct
import sys

ARM, RELOCATABLE = 183, 1  # e_machine, e_type
SYMBOLS, RELOCATIONS, EXECUTABLE = 2, (4, 9), 4  # sh_type, sh_type, a bit of sh_flags
DIRECT = range(257, 300)  # the relocations by an address or a distance
VECTOR = "a vector or floating register"

# The branches, and of the system instructions those that may be there: (mask, value).
BRANCHES = [
    (0x7C000000, 0x14000000),  # b, bl
    (0xFF000000, 0x54000000),  # b.cond
    (0x7C000000, 0x34000000),  # cbz, cbnz, tbz, tbnz
    (0xFFFFFC1F, 0xD61F0000),  # br
    (0xFFFFFC1F, 0xD63F0000),  # blr
    (0xFFFFFC1F, 0xD65F0000),  # ret
    (0xFFE0001F, 0xD4200000),  # brk
    (0xFFFFF01F, 0xD503201F),  # hints: nop
    (0xFFFFF01F, 0xD503301F),  # barriers
]


class Refused(Exception):
    pass


def fault(word):
    """What is wrong with an instruction, by the Arm manual's table of the main groups (C4.1); None if it is a general one."""
    group = word >> 25 & 15
    if group & 0b0111 == 0b0111 or group == 0b0010 or (group == 0 and word >> 31):  # SIMD and floating point, SVE, SME
        return VECTOR
    if group & 0b0101 == 0b0100:  # loads and stores
        off = word & 0x3B200C00 == 0x38000000 and (word >> 12 & 511) % (1 << (word >> 30))  # unscaled, with the distance in bits 12 to 20
        return VECTOR if word >> 26 & 1 else "an unaligned access" if off else None
    if group & 0b1110 == 0b1010:  # branches and system
        return None if any(word & mask == value for mask, value in BRANCHES) else "a system instruction"
    general = group & 0b1110 == 0b1000 or group & 0b0111 == 0b0101  # data processing, immediate and register
    return None if general else "no instruction"


def members(data):
    """The members of an archive, and the names of its index; an object is its own only member and has no index."""
    if not data.startswith(b"!<arch>\n"):
        return [data], None
    found, index, at = [], set(), 8
    while at < len(data):
        name, size = data[at : at + 16].rstrip(), int(data[at + 48 : at + 58])
        body = data[at + 60 : at + 60 + size]
        if name == b"/":
            count = int.from_bytes(body[:4], "big")
            index = set(body[4 + 4 * count :].split(b"\0")[:count])
        elif name != b"//":  # the long names
            found.append(body)
        at += 60 + size + size % 2
    return found, index


def text(table, at):
    return table[at : table.index(b"\0", at)]


class Object:
    def __init__(self, data):
        kind, machine = struct.unpack_from("<HH", data, 16) if data[:6] == b"\x7fELF\x02\x01" else (None, None)
        if (kind, machine) != (RELOCATABLE, ARM):
            raise Refused("a member is no object for Arm")
        (start,), (size, count, names) = struct.unpack_from("<Q", data, 40), struct.unpack_from("<HHH", data, 58)
        self.sections = [struct.unpack_from("<IIQQQQIIQQ", data, start + size * i) for i in range(count)]
        self.bodies = [data[it[4] : it[4] + it[5]] for it in self.sections]
        self.names = [text(self.bodies[names], it[0]) for it in self.sections]
        self.symbols = []  # name, binding, type, section, value
        for index, it in enumerate(self.sections):
            if it[1] == SYMBOLS:
                for name, info, _, section, value, _ in struct.iter_unpack("<IBBHQQ", self.bodies[index]):
                    self.symbols.append((text(self.bodies[it[6]], name), info >> 4, info & 15, section, value))

    def code(self):
        """Each word of code, with where it stands."""
        for index, it in enumerate(self.sections):
            if it[2] & EXECUTABLE and it[5]:
                own = [(at, name[:2]) for name, _, _, section, at in self.symbols if section == index]
                marks = sorted(mark for mark in own if mark[1] in (b"$x", b"$d"))
                if not marks or marks[0][0] != 0:
                    raise Refused(f"{self.names[index].decode()} does not say what is code in it")
                for (at, mark), (end, _) in zip(marks, marks[1:] + [(it[5], None)]):
                    for place in range(at, end, 4) if mark == b"$x" else ():
                        yield f"{self.names[index].decode()}+{place:#x}", int.from_bytes(self.bodies[index][place : place + 4], "little")

    def relocations(self):
        for index, it in enumerate(self.sections):
            if it[1] in RELOCATIONS:
                for at in range(0, it[5], it[9]):
                    yield struct.unpack_from("<I", self.bodies[index], at + 8)[0]

    def globals(self, defined):
        return {name for name, binding, _, section, _ in self.symbols if binding and bool(section) == defined}

    def functions(self):
        return sum(1 for _, _, kind, section, _ in self.symbols if kind == 2 and section)


def main(path):
    with open(path, "rb") as file:
        bodies, index = members(file.read())
    objects = [Object(body) for body in bodies]
    code = [it for one in objects for it in one.code()]
    if not code:
        raise Refused("no code")
    faults = [(fault(word), place, word) for place, word in code if fault(word)]
    if faults:
        what, place, word = next((it for it in faults if it[0] == VECTOR), faults[0])
        raise Refused(f"{what}: {word:#010x} at {place}, the first of {sum(it[0] == what for it in faults)}")
    indirect = {kind for one in objects for kind in one.relocations() if kind not in DIRECT}
    if indirect:
        raise Refused(f"a relocation that is not direct, of type {min(indirect)}")
    exported = set().union(*(one.globals(True) for one in objects))
    needed = set().union(*(one.globals(False) for one in objects)) - exported
    if needed:
        raise Refused(f"a symbol that is not defined: {min(needed).decode()}")
    if index is not None and index != exported:
        raise Refused("an index that is not of what is exported")
    functions = sum(one.functions() for one in objects)
    print(f"members {len(objects)}, functions {functions}, instructions {len(code)}, exported symbols {len(exported)}")


if __name__ == "__main__":
    try:
        main(*sys.argv[1:])
    except Refused as why:
        sys.exit(f"object_code: {why}")
