"""The two halves of compare_decode: `words DIR` writes the words to be read, and `compare DIR` holds
what objdump and tool_code read against each other."""

import random
import re
import sys
from pathlib import Path

# Each word stands at the start of a room of this many bytes, with zeros behind it, so that the next
# word is read from its own start whatever length objdump gives this one (22 bytes at most).
ROOM = 24

OPCODES = [0x03, 0x0F, 0x13, 0x17, 0x23, 0x33, 0x37, 0x63, 0x67, 0x6F, 0x73]

# The names of the instructions of RV32I and M. objdump knows further extensions.
NAMES = set(
    """lui auipc jal jalr beq bne blt bge bltu bgeu lb lh lw lbu lhu sb sh sw
    addi slti sltiu xori ori andi slli srli srai
    add sub sll slt sltu xor srl sra or and
    mul mulh mulhsu mulhu div divu rem remu fence ecall ebreak""".split()
)


def words():
    """Random words, words under each opcode, and the neighbours of these by one bit."""
    source = random.Random(7)
    found = {0, 0xFFFFFFFF, 0x73, 0x100073}
    found.update(source.getrandbits(32) for _ in range(10_000))
    for opcode in OPCODES:
        for funct3 in range(8):
            for funct7 in [0x00, 0x01, 0x20, source.getrandbits(7)]:
                for _ in range(4):
                    fields = source.getrandbits(32) & 0x01FF8F80
                    word = funct7 << 25 | funct3 << 12 | fields | opcode
                    found.update([word] + [word ^ 1 << bit for bit in range(32)])
    for word in [0x73, 0x100073]:
        found.update(word ^ 1 << bit for bit in range(32))
    found.update(orders << 20 | 0x0F for orders in range(256))
    return sorted(found)


def write(folder):
    listed = words()
    (folder / "words.txt").write_text("".join(f"{word:08x}\n" for word in listed))
    (folder / "words.bin").write_bytes(
        b"".join(word.to_bytes(4, "little") + bytes(ROOM - 4) for word in listed)
    )


def named_by_objdump(folder):
    """The name that objdump gives each place, with the operands."""
    line = re.compile(r"^\s*([0-9a-f]+):\t[0-9a-f ]+\t(\S+)\s*(.*)$")
    names = {}
    for text in (folder / "objdump.txt").open():
        match = line.match(text)
        if match:
            names[int(match[1], 16)] = (match[2], match[3])
    return names


def expected(word, name, operands):
    """What `decode` has to say of a word that objdump names so."""
    if word & 0x707F == 0x0F:
        # objdump leaves a fence unnamed whose reserved fields aren't 0, and has names of their own
        # for some. The manual lets every one of them be a fence.
        return "fence"
    if name in ("slli", "srli", "srai") and word >> 25 & 1:
        # objdump reads six bits of a shift. With 32-bit registers a shift has five.
        return "none"
    return name if name in NAMES else "none"


def compare(folder):
    listed = [int(line, 16) for line in (folder / "words.txt").read_text().split()]
    ours = (folder / "ours.txt").read_text().split()
    theirs = named_by_objdump(folder)
    if len(ours) != len(listed):
        print(f"compare_decode: {len(listed)} words, and {len(ours)} answers")
        return 1
    faults = accepted = 0
    for place, (word, our) in enumerate(zip(listed, ours)):
        name, operands = theirs.get(place * ROOM, ("nothing", ""))
        want = expected(word, name, operands)
        accepted += our != "none"
        if our != want:
            faults += 1
            if faults <= 20:
                print(f"compare_decode: {word:08x} is {our}, and objdump says {name} {operands}")
    print(f"compare_decode: {len(listed)} words, {accepted} with an instruction, {faults} differ")
    return 1 if faults else 0


if __name__ == "__main__":
    command, folder = sys.argv[1], Path(sys.argv[2])
    sys.exit(write(folder) if command == "words" else compare(folder))
