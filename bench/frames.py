#!/usr/bin/env python3
"""The most stack that each call reserves, on any path: read off the instructions of the static library.

    bench/frames.py target/staticlib/libcapi.a

Every path through a function is followed, whatever it tests, with the bytes by which the stack pointer has moved. The address to go back to is
counted, and so is what lies below the stack pointer (the red zone of x86-64); what memcpy, memmove and memset use beyond their address is not. An
instruction that moves the stack pointer in another way ends the program.
"""
import re
import subprocess
import sys

LINE = re.compile(r"^\s*([0-9a-f]+):\t(\S+)\s*(.*)$")
HEAD = re.compile(r"^[0-9a-f]+ <(.*)>:$")


def functions(library):
    """Name -> list of (address, mnemonic, operands, callee)."""
    text = subprocess.run(["objdump", "-dr", "--no-show-raw-insn", library], check=True, capture_output=True, text=True).stdout
    found, body = {}, None
    for line in text.splitlines():
        head = HEAD.match(line)
        if head:
            body = found.setdefault(head.group(1), [])
            continue
        if "R_X86_64_" in line and body:
            at, mnemonic, operands, _ = body[-1]
            body[-1] = (at, mnemonic, operands, re.sub(r"[-+]0x[0-9a-f]+$", "", line.split()[-1]))
            continue
        match = LINE.match(line)
        if match and body is not None:
            body.append((int(match.group(1), 16), match.group(2), match.group(3).strip(), None))
    return found


def tables(library):
    """Name -> the places that its tables of jumps lead to."""
    text = subprocess.run(["objdump", "-r", library], check=True, capture_output=True, text=True).stdout
    starts, entries, section = {}, {}, ""
    for line in text.splitlines():
        if line.startswith("RELOCATION RECORDS FOR"):
            section = line
            continue
        match = re.match(r"([0-9a-f]+) R_X86_64_PC32\s+\.(text|rodata)\.(.*?)(?:([-+])0x([0-9a-f]+))?$", line)
        if not match:
            continue
        place, area, name = int(match.group(1), 16), match.group(2), match.group(3)
        add = int((match.group(4) or "+") + (match.group(5) or "0"), 16)
        if ".rodata." in section and area == "text":
            entries.setdefault(name, []).append((place, add))
        elif ".text." in section and area == "rodata":
            starts.setdefault(name, set()).add(add + 4)
    # an entry is relative to its table, which the place of the entry in it corrects
    begin = lambda name, place: max((s for s in starts.get(name, ()) if s <= place), default=0)
    return {name: [add - (place - begin(name, place)) for place, add in of] for name, of in entries.items()}


def moved(mnemonic, operands):
    """By how much an instruction lowers the stack pointer."""
    if mnemonic in ("push", "pushq"):
        return 8
    if mnemonic in ("pop", "popq"):
        return -8
    match = re.fullmatch(r"\$(-?0x[0-9a-f]+),%rsp", operands)
    if match and mnemonic.startswith(("sub", "add")):
        value = int(match.group(1), 16)
        return value if mnemonic.startswith("sub") else -value
    match = re.fullmatch(r"(-?0x[0-9a-f]+)\(%rsp\),%rsp", operands)
    if match and mnemonic == "lea":
        return -int(match.group(1), 16)
    if operands.endswith(",%rsp") and not mnemonic.startswith(("cmp", "test", "mov", "lea")):
        sys.exit(f"frames: {mnemonic} {operands}")
    if re.search(r"[^(]%rsp$", operands) and mnemonic.startswith(("mov", "lea")) and "(%rsp)" not in operands.split(",")[-1]:
        sys.exit(f"frames: {mnemonic} {operands}")
    return 0


def depth(name, all_functions, all_tables, known):
    """The most bytes below the caller's stack pointer, the address to go back to included."""
    if name in ("memcpy", "memmove", "memset"):
        return 8
    if name in known:
        if known[name] is None:
            sys.exit(f"frames: {name} calls itself")
        return known[name]
    known[name] = None
    body = all_functions[name]
    place = {at: k for k, (at, _, _, _) in enumerate(body)}
    most, seen, todo = 0, {}, [(0, 8)]
    while todo:
        k, low = todo.pop()
        if seen.get(k) is not None:
            if seen[k] != low:
                sys.exit(f"frames: {name} reaches {body[k][0]:x} with {seen[k]} and {low} bytes")
            continue
        seen[k] = low
        at, mnemonic, operands, callee = body[k]
        low += moved(mnemonic, operands)
        below = [int(n, 16) for n in re.findall(r"-0x([0-9a-f]+)\(%rsp", operands)]
        most = max([most, low] + [low + n for n in below])
        if mnemonic.startswith("call"):
            if callee is None:
                sys.exit(f"frames: {name} calls {operands}")
            most = max(most, low + depth(callee.replace(".text.", ""), all_functions, all_tables, known))
        if mnemonic.startswith("ret") or mnemonic.startswith("ud2"):
            continue
        if mnemonic.startswith("j"):
            if operands.startswith("*") or (mnemonic.startswith("notrack")):
                if not all_tables.get(name) or any(a not in place for a in all_tables[name]):
                    sys.exit(f"frames: {name} jumps to {operands}")
                todo += [(place[a], low) for a in all_tables[name]]
                continue
            if callee is not None:  # to another function, in place of a call and a return
                most = max(most, low - 8 + depth(callee.replace(".text.", ""), all_functions, all_tables, known))
            else:
                todo.append((place[int(operands.split()[0], 16)], low))
            if mnemonic.startswith("jmp"):
                continue
        if k + 1 < len(body):
            todo.append((k + 1, low))
    known[name] = most
    return most


def main():
    library = sys.argv[1]
    all_functions, all_tables, known = functions(library), tables(library), {}
    print("\nstack that each function of the library reserves at most, bytes")
    for name in sorted(all_functions):
        if name.startswith("purse_"):
            print(f"{name:52}{depth(name, all_functions, all_tables, known):12}")


main()
