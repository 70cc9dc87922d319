"""What checks/c and checks/processors share: the rows over which they run the library for C, that is keys, messages and
signatures that another implementation made, changes of them that have to be refused, and the answer to each; and how a
library is linked and run over them, for one processor or another."""

import os
import re
import struct
import subprocess
import sys

TOP = os.path.dirname(os.path.dirname(os.path.abspath(__file__)))
DATA = f"{TOP}/crates/vectors_tool/data"
STRICT = ["-Wall", "-Wextra", "-Wpedantic", "-Werror", "-O2", "-I", f"{TOP}/include"]
# The leaf that made each signature.
LEAVES = {"5-1": 24, "5-2": 20, "5-3": 31, "5-4": 29, "6-3": 435, "9-4": 6082160, "10-5": 22, "10-6": 25, "10-7": 25,
          "10-8": 14, "11-7": 874, "14-8": 21964937}
# Changes to the files of 10-8: which file, a place in it, the byte that is put there, its length, and the answer.
CHANGES = [
    ("key", 0, 0, 7, 0x11),
    ("key", 3, 4, 48, 0x12),
    ("key", 7, 9, 48, 0x13),
    ("key", 7, 3, 48, 0x14),
    ("key", 3, 10, 47, 0x15),
    ("signature", 0, 0, 7, 0x21),
    ("signature", 7, 7, 780, 0x22),
    ("signature", 0, 0, 658, 0x23),
    ("signature", 659, 11, 780, 0x24),
    ("signature", 3, 32, 780, 0x25),
    ("signature", 0, 0, 779, 0x26),
    ("message", 0, 0, 5, 0x01),
    ("message", 0, 0, 0, 0x01),
]


def read(name):
    with open(f"{DATA}/{name}", "rb") as file:
        return file.read()


def lms_rows():
    """Key, message, signature, answer and leaf, of each row that another implementation made, and of changes to one."""
    for name, leaf in LEAVES.items():
        yield name, *(read(f"{name}.{kind}") for kind in ("key", "message", "signature")), 0, leaf
    for kind, place, byte, length, answer in CHANGES:
        parts = {kind: bytearray(read(f"10-8.{kind}")) for kind in ("key", "message", "signature")}
        parts[kind][place] = byte
        changed = bytes(parts[kind][:length].ljust(length, b"\0"))
        parts = {each: bytes(value) for each, value in parts.items()} | {kind: changed}
        yield f"{kind} {place} {byte} {length}", *parts.values(), answer, None


def hss_answer(line):
    """The answer that corresponds to a line of the program."""
    if line.startswith("accepted levels "):
        return 0
    if line == "not accepted: hss short":
        return 0x33
    if line.startswith("not accepted: hss levels "):
        return 0x34
    if found := re.fullmatch(r"error 4 file KEY fault (\d)", line):
        fault = int(found[1])
        return 0x30 + fault if fault <= 2 else 0x10 + fault - 2
    if found := re.fullmatch(r"not accepted: hss root (\d) .*", line):
        return 0x100 * int(found[1]) + 1
    found = re.fullmatch(r"not accepted: hss (sig|key) (\d) level (\d)", line)
    return 0x100 * int(found[3]) + (0x20 if found[1] == "sig" else 0x10) + int(found[2])


def hss_lines():
    """Name, key, message and signature of each row of the HSS data, and the program's line for it."""
    rows = [(str(number), None) for number in range(4)]
    rows += [(row.split()[0], row.split()[1:]) for row in read("hss.changes").decode().splitlines()]
    with open(f"{DATA}/../stdout", encoding="utf-8") as file:
        lines = file.read().splitlines()
    first = lines.index("accepted levels 1")
    for place, (number, change) in enumerate(rows):
        parts = {kind: bytearray(read(f"hss.{number}.{kind}")) for kind in ("KEY", "MESSAGE", "SIGNATURE")}
        if change:
            bytes_of, what, numbers = parts[change[0]], change[1], [int(word) for word in change[2:]]
            if what == "cut":
                del bytes_of[numbers[0]:]
            elif what == "add":
                bytes_of.append(numbers[0])
            else:
                bytes_of[numbers[0]] = numbers[1]
        yield f"{number} {change}", *map(bytes, parts.values()), lines[first + 2 * place]


def hss_rows():
    """Key, message, signature and answer of each row of the HSS data."""
    for *row, line in hss_lines():
        yield *row, hss_answer(line)


def all_rows():
    """Kind (lms or hss), name, key, message, signature, answer and leaf of each row; the leaf is None if there is
    none."""
    yield from (("lms", *row) for row in lms_rows())
    yield from (("hss", *row, None) for row in hss_rows())


def packed():
    """All rows in one string of bytes, as script/rows.c reads them: how many there are, and for each its kind, its
    three lengths, the answer and the leaf, each in 4 bytes, the lowest first, and its key, message and signature,
    filled up with zeros to a multiple of 4. A row without a leaf has 0xdeadbeef, which a call has to leave as it
    was."""
    rows = list(all_rows())
    parts = [struct.pack("<I", len(rows))]
    for kind, _, key, message, signature, answer, leaf in rows:
        lengths = [len(part) for part in (key, message, signature)]
        parts.append(struct.pack("<6I", kind == "hss", *lengths, answer, 0xdeadbeef if leaf is None else leaf))
        parts += [key, message, signature, b"\0" * (-sum(lengths) % 4)]
    return b"".join(parts)


def cuts(message):
    """Pieces of a message, cut in several ways, with empty pieces among them."""
    yield [message]
    yield [] if not message else [message[:1], b"", message[1:]]
    yield [message[place:place + 1] for place in range(len(message))]
    yield [message[place:place + 63] for place in range(0, len(message), 63)] + [b""]


def fail(text):
    sys.exit(f"checks/{os.path.basename(sys.argv[0])}: {text}")


def passed(text):
    print(f"ok: {text}", flush=True)


def run(words, **more):
    return subprocess.run(words, check=False, capture_output=True, text=True, **more)


def write(folder, name, content):
    with open(f"{folder}/{name}", "wb") as file:
        file.write(content)
    return f"{folder}/{name}"


class Target:
    """A compiler with the words that it needs, what is linked to each program (the library, or C that stands for it),
    and the command that runs a program."""

    def __init__(self, name, compiler, linked, runner=()):
        self.name, self.compiler, self.linked, self.runner = name, list(compiler), list(linked), list(runner)

    def build(self, folder, name, words):
        built = run([*self.compiler, *words, "-o", f"{folder}/{name}"])
        if built.returncode != 0:
            fail(f"{self.name}: {name} does not build:\n{built.stderr}")
        return f"{folder}/{name}"

    def run(self, program, *words, **more):
        return run([*self.runner, program, *words], **more)

    def check_verify(self, folder, name, more):
        """Runs each row through examples/verify.c."""
        program = self.build(folder, name, ["-std=c99", *STRICT, *more, f"{TOP}/examples/verify.c", *self.linked])
        count = 0
        for kind, row, key, message, signature, answer, _ in all_rows():
            files = [write(folder, part, content) for part, content in
                     (("key", key), ("message", message), ("signature", signature))]
            got = self.run(program, *(["hss"] if kind == "hss" else []), *files)
            line = "accepted\n" if answer == 0 else f"not accepted: 0x{answer:03x}\n"
            if (got.returncode, got.stdout, got.stderr) != (int(answer != 0), line, ""):
                fail(f"{self.name}: {name} {row}: {got.returncode} {got.stdout}{got.stderr}")
            count += 1
        passed(f"{self.name}: {count} rows by examples/verify.c {' '.join(more)}".rstrip())

    def check_boot(self, folder):
        """Runs the rows of two keys, and those that are refused, through examples/boot.c, which has no C library."""
        for name, key, image, signature, answer, _ in lms_rows():
            if not (name in ("5-3", "10-8") or answer) or not image:
                continue
            arrays = (("key", key), ("image", image), ("signature", signature))
            text = "".join(
                f"static const unsigned char {array}[] = {{{','.join(map(str, content))}}};\n"
                for array, content in arrays)
            write(folder, "image.h", text.encode())
            program = self.build(folder, "boot", [
                "-std=gnu99", *STRICT, "-ffreestanding", "-fno-stack-protector", "-nostdlib", "-static",
                "-I", folder, '-DIMAGE="image.h"', f"{TOP}/examples/boot.c", *self.linked])
            status = self.run(program).returncode
            if status != answer:
                fail(f"{self.name}: boot {name}: status {status} in place of {answer}")
        passed(f"{self.name}: examples/boot.c, with no C library")
