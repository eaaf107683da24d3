#!/usr/bin/env python3
"""Prints how much stack each exported function of a static library can use, from its compiled code.

usage: tests/stack_use.py [--leaf NAME].. ARCHIVE [FUNCTION..]    of these functions instead, where each stands by itself, as in unoptimised
code; a function that is not in the archive may be called where it is named as one that uses no stack

Every path through every function is followed with the stack pointer's distance from its value at entry, and the deepest path of calls is
printed in bytes, the return address that a call pushes (x86-64) included. Fails on what it cannot follow: a call of an address that is
computed, recursion, a function that is not in the archive, an instruction that sets the stack pointer in a way not known here, two
paths that meet at different distances. A computed jump has to be a switch, in a function that loads the address of constant data: its
cases are read from its table where that is plain to see, and else what nothing else comes to is taken for them.
"""
import os
import re
import shutil
import subprocess
import sys


class Unknown(Exception):
    pass


def said(tool, *words, check=True):
    """What a disassembler, a program and the name by which it is called, says."""
    program, name = tool
    return subprocess.run([name, *words], executable=program, capture_output=True, text=True, check=check)


def tool(archive):
    """The first disassembler here that reads the archive's code: the kit's, which is its compiler by another name, or one of the machine's."""
    rt = shutil.which("rt")
    kit = rt and os.path.dirname(os.path.dirname(os.path.realpath(rt)))
    found = [(f"{kit}/toolchain/bin/clang", "llvm-objdump")] if kit else []
    for it in [*found, *((it, it) for it in ("objdump", "llvm-objdump", "x86_64-linux-gnu-objdump", "aarch64-linux-gnu-objdump"))]:
        try:
            ran = said(it, "-dr", "--no-show-raw-insn", archive, check=False)
        except FileNotFoundError:
            continue
        if ran.returncode == 0 and ">:" in ran.stdout:
            return it, ran.stdout
    raise Unknown(f"no objdump that reads {archive}")


class Instruction:
    def __init__(self, address, name, operands):
        self.address, self.name, self.operands = address, name, operands
        self.symbol = None  # what its relocation names


def functions(listing):
    """The instructions of each function; each stands in a section of its own."""
    found, sections, section, code = {}, {}, None, None
    for line in listing.splitlines():
        if m := re.match(r"Disassembly of section (.+):$", line):
            section = m[1]
        elif m := re.match(r"[0-9a-f]+ <(.+)>:$", line):
            if section in sections:
                raise Unknown(f"two functions in section {section}")
            sections[section] = m[1]
            code = found[m[1]] = []
        elif m := re.match(r"\s+[0-9a-f]+:\s+(R_\w+)\s+(\S+)", line):
            code[-1].symbol = m[2]
        elif m := re.match(r"\s*([0-9a-f]+):\s+(\S+)\s*(.*)$", line):
            operands = re.split(r"\s*(?://|#\s|<)", m[3])[0].strip()
            code.append(Instruction(int(m[1], 16), m[2], operands))
    return found, sections


def tables(disassembler, archive):
    """What the words of constant data point to: {section: {place: (section, distance)}}."""
    listing = said(disassembler, "-r", archive).stdout
    found, section = {}, None
    for line in listing.splitlines():
        if m := re.match(r"RELOCATION RECORDS FOR \[(.+)\]:", line):
            section = m[1]
        elif m := re.match(r"([0-9a-f]+) R_X86_64_PC32\s+(\.text\S*?)(\+0x[0-9a-f]+)?$", line):
            found.setdefault(section, {})[int(m[1], 16)] = (m[2], int(m[3] or "0", 16))
    return found


def contents(disassembler, archive):
    """The bytes of every section of constant data."""
    listing = said(disassembler, "-s", archive).stdout
    found, section = {}, None
    for line in listing.splitlines():
        if m := re.match(r"Contents of section (.+):$", line):
            section = m[1]
        elif section and section.startswith(".rodata") and (m := re.match(r" [0-9a-f]+ ((?:[0-9a-f]{2,8} ){1,4})", line)):
            found[section] = found.get(section, b"") + bytes.fromhex(m[1].replace(" ", ""))
    return found


def table_start(symbol):
    """A table's section and place, from a relocation's symbol."""
    m = re.fullmatch(r"(\.rodata\S*?)([-+]0x[0-9a-f]+)?", symbol or "")
    return (m[1], int(m[2] or "0", 16)) if m else None


def table_end(code, section, start):
    """Where the next table of this function begins, if there is one."""
    starts = [table_start(it.symbol) for it in code if it.symbol]
    return min((at for name, at in filter(None, starts) if name == section and at > start), default=None)


def last_set(code, index, register):
    """The place of the last instruction before this one that sets a register, written last (x86-64) or first (Arm)."""
    shape = rf"(.*,\s*)?{register}" if register.startswith("%") else rf"{register},.*"
    return max((at for at in range(index) if re.fullmatch(shape, code[at].operands)), default=None)


class X86:
    RETURN_ADDRESS = 8

    @staticmethod
    def cases(code, index, tables):
        """Where a switch goes, if it stands so: lea table,base; movslq (base,case,4),to; add base,to; jmp *to."""
        to = code[index].operands.lstrip("*")
        added = last_set(code, index, to)
        loaded = last_set(code, added, to) if added is not None and code[added].name in ("add", "addq") else None
        m = re.match(r"\((%\w+),\s*%\w+,\s*4\),", code[loaded].operands) if loaded is not None else None
        if not m or code[loaded].name != "movslq" or not code[added].operands.startswith(m[1] + ","):
            return None
        base = last_set(code, loaded, m[1])
        found = table_start(code[base].symbol) if base is not None and code[base].name in ("lea", "leaq") else None
        if not found:
            return None
        # A relocation counts from the instruction's end, 4 bytes on; a row's from the row.
        (section, start), end = found, table_end(code, *found)
        rows = {at: row for at, row in tables["rows"].get(section, {}).items() if start + 4 <= at < (end or 1 << 30) + 4}
        if sorted(rows) != list(range(start + 4, start + 4 + 4 * len(rows), 4)):
            raise Unknown(f"a table with holes for the switch at {code[index].address:#x}")
        return [(name, distance - (at - start - 4)) for at, (name, distance) in rows.items()]

    @staticmethod
    def step(it):
        """What an instruction does: (kind, number). `move` sets the pointer lower by the number, `reach` touches so far below it."""
        name = it.name[:-1] if re.fullmatch(r"(push|pop|sub|add|lea|call|ret|jmp|mov|and|cmp|test)q", it.name) else it.name
        ops = it.operands
        if name in ("call",):
            return ("computed call", 0) if "*" in ops else ("call", 0)
        if name == "jmp":
            return ("switch", 0) if "*" in ops else ("jump", 0)
        if name in ("ret", "ud2", "hlt", "int3"):
            return ("return" if name == "ret" else "stop", 0)
        if re.fullmatch(r"j[a-z]+", name):
            return ("branch", 0)
        if name == "push":
            return ("move", 8)
        if name == "pop" and "%rsp" not in ops:
            return ("move", -8)
        if m := re.fullmatch(r"\$(-?\w+),\s*%rsp", ops):
            if name in ("sub", "add"):
                return ("move", int(m[1], 0) * (1 if name == "sub" else -1))
        if m := re.fullmatch(r"(-?\w+)\(%rsp\),\s*%rsp", ops):
            if name == "lea":
                return ("move", -int(m[1], 0))
        sets = re.search(r"(^|,\s*)%(rsp|esp|sp|spl)$", ops) and name not in ("cmp", "test")
        if sets or name in ("leave", "enter", "xchg", "pushf", "popf", "syscall", "int", "iret"):
            raise Unknown(f"{it.name} {ops}")
        if m := re.search(r"-(\w+)\(%rsp", ops):
            # To the end of the word, which is what a painted stack shows.
            return ("reach", -(-int(m[1], 0) // 8) * 8)
        return ("plain", 0)

    @staticmethod
    def padding(it):
        return "nop" in it.name or "nop" in it.operands or (it.name, it.operands) == ("xchg", "%ax,%ax")


class Arm:
    RETURN_ADDRESS = 0

    @staticmethod
    def cases(code, index, tables):
        """Where a switch goes, if it stands so: add table,table,..; adr to,first; ldrb row,[table,case]; add to,to,row,lsl #2; br to."""
        to = code[index].operands
        added = last_set(code, index, to)
        m = re.fullmatch(rf"{to}, {to}, [wx](\d+), lsl #2", code[added].operands) if added is not None else None
        first = last_set(code, added, to) if m else None
        loaded = last_set(code, added, "w" + m[1]) if m else None
        if None in (first, loaded) or code[first].name != "adr" or code[loaded].name not in ("ldrb", "ldrh"):
            return None
        base = last_set(code, loaded, re.search(r"\[(x\d+)", code[loaded].operands)[1])
        found = table_start(code[base].symbol) if base is not None and code[base].name == "add" else None
        if not found:
            return None
        (section, start), end = found, table_end(code, *found)
        size, data = (1 if code[loaded].name == "ldrb" else 2), tables["bytes"][section]
        rows = data[start : end if end is not None else len(data)]
        distances = {int.from_bytes(rows[at : at + size], "little") for at in range(0, len(rows) - size + 1, size)}
        # One disassembler writes where the first case is, another how far off.
        off = re.search(r"#(-?\w+)$", code[first].operands)
        label = code[first].address + int(off[1], 0) if off else int(re.search(r"(?:0x)?([0-9a-f]+)$", code[first].operands)[1], 16)
        return [(None, label + 4 * distance) for distance in distances]
    BRANCHES = r"b\.\w+|cbn?z|tbn?z"

    @staticmethod
    def step(it):
        name, ops = it.name, it.operands
        if name == "bl":
            return ("call", 0)
        if name in ("blr", "blraa", "blrab"):
            return ("computed call", 0)
        if name in ("b", "br"):
            return ("jump" if name == "b" else "switch", 0)
        if name in ("ret", "udf", "brk"):
            return ("return" if name == "ret" else "stop", 0)
        if re.fullmatch(Arm.BRANCHES, name):
            return ("branch", 0)
        if m := re.fullmatch(r"sp, sp, #(\w+)(, lsl #12)?", ops):
            if name in ("sub", "add"):
                return ("move", int(m[1], 0) * (4096 if m[2] else 1) * (1 if name == "sub" else -1))
        if m := re.search(r"\[sp, #(-?\w+)\]!", ops):
            return ("move", -int(m[1], 0))
        if m := re.search(r"\[sp\], #(-?\w+)", ops):
            return ("move", -int(m[1], 0))
        sets = re.match(r"(sp|wsp)\b", ops) and name not in ("cmp", "cmn", "tst")
        if sets or "[sp, #-" in ops or name in ("svc", "hvc", "smc", "eret") or name.startswith("reta"):
            raise Unknown(f"{name} {ops}")
        return ("plain", 0)

    @staticmethod
    def padding(it):
        return it.name == "nop"


class Function:
    def __init__(self, name, code, machine, sections, tables):
        self.name, self.code, self.machine, self.sections, self.tables = name, code, machine, sections, tables
        self.at = {it.address: index for index, it in enumerate(code)}
        self.depths, self.todo, self.switches = {}, [], set()
        self.deepest, self.calls = 0, []
        self.meet(0, 0)
        self.walk()
        self.walk_switched()

    def meet(self, index, depth):
        """Comes to an instruction at this distance."""
        if index >= len(self.code):
            raise Unknown("the code runs past its end")
        if self.depths.setdefault(index, depth) != depth:
            raise Unknown(f"two distances at {self.code[index].address:#x}")
        self.todo.append(index)

    def target(self, it):
        """Where a jump goes in this function, or the other function that it enters."""
        if it.symbol:
            symbol = re.sub(r"[-+]0x[0-9a-f]+$", "", it.symbol)
            return self.sections.get(symbol, symbol)
        m = re.search(r"(?:0x)?([0-9a-f]+)$", it.operands)
        return self.at[int(m[1], 16)]

    def walk(self):
        seen = set()
        while self.todo:
            index = self.todo.pop()
            if index not in seen:
                seen.add(index)
                self.follow(index)

    def follow(self, index):
        it, depth = self.code[index], self.depths[index]
        kind, number = self.machine.step(it)
        self.deepest = max(self.deepest, depth + (number if kind in ("move", "reach") else 0))
        if kind == "computed call":
            raise Unknown(f"a computed call at {it.address:#x}")
        if kind == "call":
            target = self.target(it)
            self.calls.append((target if isinstance(target, str) else self.name, depth + self.machine.RETURN_ADDRESS))
        if kind == "switch":
            self.note_switch(index, depth)
        if kind == "return" and depth != 0:
            raise Unknown(f"a return {depth} bytes below the entry")
        if kind in ("jump", "branch"):
            target = self.target(it)
            if isinstance(target, str):
                self.calls.append((target, depth))
            else:
                self.meet(target, depth)
        if kind not in ("jump", "switch", "return", "stop"):
            self.meet(index + 1, depth + (number if kind == "move" else 0))

    def note_switch(self, index, depth):
        if not any((it.symbol or "").startswith(".rodata") for it in self.code[:index]):
            raise Unknown(f"a computed jump without a table at {self.code[index].address:#x}")
        cases = self.machine.cases(self.code, index, self.tables)
        if cases is None:
            self.switches.add(depth)
            return
        for section, address in cases:
            own = section is None or self.tables["code"][self.sections[section]] is self.code
            if not own or address not in self.at:
                raise Unknown(f"a case outside the function, at {address:#x}")
            self.meet(self.at[address], depth)

    def walk_switched(self):
        """What only a switch comes to; the distances have to fit where its cases join the rest. A trap that nothing comes to uses nothing."""
        for index, it in enumerate(self.code):
            if index in self.depths or self.machine.padding(it) or self.machine.step(it)[0] == "stop":
                continue
            if len(self.switches) != 1:
                raise Unknown(f"nothing comes to {it.address:#x}, or switches at {sorted(self.switches)} bytes")
            self.meet(index, next(iter(self.switches)))
            self.walk()


class Archive:
    """What each function of an archive uses; a function is read when it is first come to."""

    def __init__(self, path, leaves):
        self.path = path
        self.disassembler, listing = tool(path)
        self.machine = X86 if "elf64-x86-64" in listing else Arm if "aarch64" in listing else None
        if self.machine is None:
            raise Unknown("code for a machine not known here")
        self.code, self.sections = functions(listing)
        self.data = {"code": self.code, "rows": tables(self.disassembler, path), "bytes": contents(self.disassembler, path)}
        self.known = {it: (0, (it,)) for it in leaves}

    def exported(self):
        listing = said(self.disassembler, "-t", self.path).stdout
        found = re.findall(r"^[0-9a-f]+ g\s+F \.text\S*\s+[0-9a-f]+ (\S+)$", listing, re.M)
        if not found:
            raise Unknown("no exported function")
        return sorted(found)

    def deepest(self, name, path=()):
        """The most bytes below this function's entry, and the calls that use them."""
        if name in path:
            raise Unknown(f"recursion: {' '.join(path)} {name}")
        if name not in self.known:
            if name not in self.code:
                raise Unknown(f"{name} is not in the archive")
            try:
                own = Function(name, self.code[name], self.machine, self.sections, self.data)
            except Unknown as why:
                raise Unknown(f"{name}: {why}") from None
            best = (own.deepest, (name,))
            for callee, depth in own.calls:
                below, calls = self.deepest(callee, path + (name,))
                best = max(best, (depth + below, (name,) + calls))
            self.known[name] = best
        return self.known[name]


def main(*words):
    leaves = []
    while words[0] == "--leaf":
        leaves, words = [*leaves, words[1]], words[2:]
    path, *names = words
    archive = Archive(path, leaves)
    for name in names or archive.exported():
        below, calls = archive.deepest(name)
        print(f"{name} {below + archive.machine.RETURN_ADDRESS} {' > '.join(calls[1:]) or '-'}")


if __name__ == "__main__":
    try:
        main(*sys.argv[1:])
    except Unknown as why:
        sys.exit(f"stack: {why}")
