"""stack.py PROGRAM: the most stack that each entry of the library linked into an x86-64 program can use, read off its machine code by objdump.

Every way through a function is followed from its start and the height of its frame kept for each instruction, so that pushes before a call count.
What an entry can use is the most over its calls, down to functions that call none. Recursion, a call by a pointer and a frame whose size is worked
out as it runs would be an end of this: each is looked for. The C library's memset and memcpy count as 8 bytes, their return address.
"""
import re
import subprocess
import sys

ENTRIES = ["build", "search", "begin", "iterate", "open", "move_job", "close"]
RETURN_ADDRESS = 8
# The start of a function, whose own name may have angles, and no place within one
TARGET = re.compile(r"([0-9a-f]+) <((?:(?!\+0x[0-9a-f]+>$).)+)>$")
LINE = re.compile(r"\s*([0-9a-f]+):\s+(?:bnd |notrack |rep |repz |data16 )*(\S+)\s*(.*)")


def functions(program):
    """Each function as its instructions, by address: name, address and [(address, operation, operands)]."""
    text = subprocess.run(["objdump", "-d", "--no-show-raw-insn", program], check=True, capture_output=True, text=True).stdout
    found, code = {}, None
    for line in text.splitlines():
        head = re.match(r"([0-9a-f]+) <(.*)>:$", line)
        if head:
            code = []
            found[int(head[1], 16)] = (head[2], code)
        elif code is not None and (instruction := LINE.match(line)):
            code.append((int(instruction[1], 16), instruction[2], instruction[3]))
    return found


def step(operation, operands):
    """By how much an instruction moves the stack down."""
    if operation.startswith("push"):
        return 8
    if operation.startswith("pop"):
        return -8
    if operands.endswith(",%rsp") or operation == "leave":
        moved = re.match(r"\$0x([0-9a-f]+),%rsp", operands)
        if operation in ("sub", "add") and moved:
            bytes_down = int(moved[1], 16)
            bytes_down -= bytes_down >> 63 << 64
            return bytes_down if operation == "sub" else -bytes_down
        if operation not in ("cmp", "test"):
            raise SystemExit(f"a frame whose size is not in the code: {operation} {operands}")
    return 0


def walked(code):
    """The height of the frame before each instruction, by address. What a table of jumps leads to is entered at the height of its jump."""
    places = {at: place for place, (at, _, _) in enumerate(code)}
    heights, open_ends, tables = {}, [(code[0][0], 0)], []
    while True:
        while open_ends:
            at, height = open_ends.pop()
            while at in places:
                if heights.get(at, height) != height:
                    raise SystemExit(f"two heights at {at:x}: {heights[at]} and {height}")
                if at in heights:
                    break
                heights[at] = height
                place = places[at]
                _, operation, operands = code[place]
                height += step(operation, operands)
                target = re.match(r"([0-9a-f]+)\b", operands)
                if operation.startswith("j"):
                    if target:
                        open_ends.append((int(target[1], 16), height))
                    else:
                        tables.append(height)
                if operation in ("jmp", "ret", "ud2", "hlt") or place + 1 == len(code):
                    break
                at = code[place + 1][0]
        left = [at for at, operation, _ in code if at not in heights and not operation.startswith(("nop", "cs", "int3", "xchg"))]
        if not left or not tables:
            return heights
        open_ends.append((left[0], max(tables)))


def most(start, found, above=()):
    """The most stack below the caller of a function, its return address counted, and the names of the calls that use it."""
    if start in above:
        raise SystemExit(f"recursion: {found[start][0]}")
    name, code = found[start]
    heights = walked(code)
    best, chain = max(heights.values()), []
    for at, operation, operands in code:
        called, target = operation.startswith("call"), TARGET.match(operands)
        if called and not target:
            raise SystemExit(f"a call by a pointer in {name}")
        # A jump to the start of another function stands for a call at its end; one to its own start is a loop.
        if at not in heights or not target or not (called or operation.startswith("j") and int(target[1], 16) != start):
            continue
        if "@plt" in target[2]:
            below, names = RETURN_ADDRESS, [target[2]]
        else:
            below, names = most(int(target[1], 16), found, (*above, start))
        below -= 0 if called else RETURN_ADDRESS
        if heights[at] + below > best:
            best, chain = heights[at] + below, names
    return best + RETURN_ADDRESS, [name, *chain]


def main():
    found = functions(sys.argv[1])
    starts = {name: start for start, (name, _) in found.items()}
    print("entry,bytes by the code,by way of")
    for entry in ENTRIES:
        size, chain = most(starts[f"spoonmeadow_{entry}"], found)
        print(f"{entry},{size},{' '.join(chain[1:])}")


main()
