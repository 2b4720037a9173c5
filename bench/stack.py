#!/usr/bin/env python3
"""The most stack that each function of a static library can take, whatever it is called with: `stack.py LIBRARY`.

Reads the machine code: how deep the stack is at each instruction of a function, and which calls are made there. Stops at
whatever would make the sum wrong: a recursion, a call through a register, a stack pointer that is computed, a depth that
depends on the way. What the functions of the C library take that are called is not in it, but their names are printed.
"""
import functools
import re
import subprocess
import sys

FUNCTION = re.compile(r"[0-9a-f]+ <(.*)>:$")
INSTRUCTION = re.compile(r" *([0-9a-f]+):\t(\S+) *(.*)$")
CALLEE = re.compile(r"\t+[0-9a-f]+: R_X86_64_(?:PLT|PC)32\t(?:\.text\.(?:unlikely\.)?)?(.*)-0x4$")
STEP = re.compile(r"\$(0x[0-9a-f]+),%rsp$")
LIMIT = re.compile(r"\$(0x[0-9a-f]+),%r11$")
BELOW = re.compile(r"-(0x[0-9a-f]+)\(%rsp([,)])")
WORD = 8
RED_ZONE = 128


class Instruction:
    def __init__(self, name, operands):
        self.name, self.operands, self.callee = name, operands, None

    def grows(self):
        """By how much the stack is deeper behind it."""
        if self.name in ("push", "pop"):
            return WORD if self.name == "push" else -WORD
        if not self.operands.endswith(",%rsp") or self.name in ("cmp", "test"):
            return 0
        step = STEP.match(self.operands)
        if self.name not in ("sub", "add") or not step:
            sys.exit(f"the stack pointer is computed: {self.name} {self.operands}")
        return int(step[1], 16) if self.name == "sub" else -int(step[1], 16)

    def reaches(self):
        """How far it gets below the stack pointer that stands before it: by a push, or into the red zone."""
        if found := BELOW.search(self.operands):
            return int(found[1], 16) if found[2] == ")" else RED_ZONE
        return max(self.grows(), 0)


def disassembled(library):
    """The instructions of each function by their address."""
    text = subprocess.run(["objdump", "-dr", "--no-show-raw-insn", library], check=True, capture_output=True, text=True)
    functions, last = {}, None
    for line in text.stdout.splitlines():
        if found := FUNCTION.match(line):
            instructions = functions[found[1]] = {}
        elif found := INSTRUCTION.match(line):
            last = instructions[int(found[1], 16)] = Instruction(found[2], found[3])
        elif (found := CALLEE.match(line)) and (last.name == "call" or last.name.startswith("j")):
            last.callee = found[1]
    for instructions in functions.values():
        join_probes(list(instructions.values()))
    return functions


def join_probes(instructions):
    """A large frame is taken a page at a time, in a loop of six instructions that ends where %r11 points: it becomes one step."""
    for start, limit, step, _, _, jump in zip(*(instructions[i:] for i in range(6))):
        whole = LIMIT.match(limit.operands)
        if (start.name, start.operands) == ("mov", "%rsp,%r11") and limit.name == "sub" and whole:
            if jump.name != "jne" or not step.operands.endswith(",%rsp"):
                sys.exit("the stack pointer is computed: by %r11")
            step.operands, jump.name = f"${whole[1]},%rsp", "nop"


def followers(instruction, behind):
    """Where it goes on in the same function; None for a table of jumps."""
    if instruction.name in ("ret", "ud2") or instruction.name == "jmp" and instruction.callee:
        return []
    if not instruction.name.startswith("j") or instruction.callee:
        return [behind]
    if instruction.operands.startswith("*"):
        return None
    target = int(instruction.operands.split()[0], 16)
    return [target] if instruction.name == "jmp" else [target, behind]


def depths(instructions):
    """How deep the stack is before each instruction. All that only tables of jumps lead to is as deep as those are."""
    addresses = list(instructions)
    behind = dict(zip(addresses, addresses[1:]))
    found, tables, todo = {}, set(), [(addresses[0], 0)]
    while todo:
        at, depth = todo.pop()
        if at in found:
            if found[at] != depth:
                sys.exit(f"the depth at {at:x} depends on the way")
            continue
        found[at] = depth
        depth += instructions[at].grows()
        next_ones = followers(instructions[at], behind.get(at))
        if next_ones is None:
            tables.add(depth)
        todo += [(target, depth) for target in next_ones or []]
        if not todo and len(tables) == 1:
            todo += [(left, *tables) for left in addresses if left not in found and instructions[left].name != "nop"][:1]
    if len(tables) > 1:
        sys.exit("tables of jumps at different depths")
    return found


def bounds(library):
    """The bound of each function, with what it calls, and the names of the C functions that are called."""
    functions, outside = disassembled(library), set()

    @functools.cache
    def bound(name, callers=()):
        if name in callers:
            sys.exit(f"{name} calls itself")
        if name not in functions:
            outside.add(name)
            return 0
        instructions, most = functions[name], 0
        for at, depth in depths(instructions).items():
            instruction = instructions[at]
            most = max(most, depth + instruction.reaches())
            if instruction.name == "call" and not instruction.callee:
                sys.exit(f"{name} calls something by its address")
            if instruction.callee:
                address = WORD if instruction.name == "call" else 0
                most = max(most, depth + address + bound(instruction.callee, (*callers, name)))
        return most

    return {name: WORD + bound(name) for name in functions}, sorted(outside)


def main():
    found, outside = bounds(sys.argv[1])
    for name, most in sorted(found.items(), key=lambda pair: -pair[1]):
        print(f"{most:6} {name}")
    print("called of the C library: " + ", ".join(outside))


if __name__ == "__main__":
    main()
