"""What the scripts that make case files of the machine share: GNU's assembler, and the text of a case.

The scripts need Debian's package binutils-arm-none-eabi.
"""
import os
import subprocess
import tempfile

TOP = os.path.dirname(os.path.dirname(os.path.abspath(__file__)))

# Routines of the programs. `number` prints r0 in hexadecimal; `numbers` prints the r7 words from r6 on, each behind a
# blank. They use r0, r2 and r3, and numbers uses r6, r7 and r8.
ROUTINES = """
number: mov r2,r0
        mov r3,#8
digit:  mov r0,r2,lsr #28
        cmp r0,#10
        addcc r0,r0,#'0'
        addcs r0,r0,#'A'-10
        swi 0x00
        mov r2,r2,lsl #4
        subs r3,r3,#1
        bne digit
        mov pc,lr
numbers: mov r8,lr
another: mov r0,#' '
        swi 0x00
        ldr r0,[r6],#4
        bl number
        subs r7,r7,#1
        bne another
        mov pc,r8
"""


def assembled(source, base=0, thumb=False):
    """The bytes of a source of GNU's assembler, placed at a base."""
    with tempfile.TemporaryDirectory() as folder:
        text, made, linked, flat = (os.path.join(folder, name) for name in ("a.s", "a.o", "a.elf", "a.bin"))
        with open(text, "w") as file:
            file.write(".syntax unified\n" + (".thumb\n" if thumb else ".arm\n") + source + "\n")
        subprocess.run(["arm-none-eabi-as", "--no-warn", "-mcpu=arm7tdmi", "-mthumb-interwork", "-o", made, text], check=True)
        script = ["--no-warn-mismatch", "-e", "0", f"-Ttext=0x{base:X}"]
        subprocess.run(["arm-none-eabi-ld", *script, "-o", linked, made], check=True)
        subprocess.run(["arm-none-eabi-objcopy", "-O", "binary", "-j", ".text", linked, flat], check=True)
        with open(flat, "rb") as file:
            return file.read()


def instructions(lines, thumb):
    """Each line with the number of its word, its half-word, or its two half-words."""
    made = []
    for line in lines.split("\n"):
        if line:
            made.append((line, int.from_bytes(assembled(line, 0, thumb)[:4], "little")))
    return made


def hexadecimal(data):
    """The lines of a content in hexadecimal, four bytes together."""
    groups = [data[i : i + 4].hex().upper() for i in range(0, len(data), 4)]
    return [" ".join(groups[i : i + 12]) for i in range(0, len(groups), 12)]


def case_of(name, image, words, printed, devices=(), room=None, answer="done", modes=""):
    """A case that runs an image and compares what it prints."""
    lines = [f"== {name}", "-- file image.bin hex", *hexadecimal(image)]
    lines += [f"-- device {device}" for device in devices]
    if room is not None:
        lines.append(f"-- room {room}")
    lines += [f"-- run run -bin image.bin {words}", *answer_of(answer)]
    if printed:
        lines += [f"-- printed{modes}", *printed]
    return lines


def answer_of(answer):
    return ["-- status 0"] if answer == "done" else [f"-- answer {answer}"]


def write_cases(name, head, cases):
    path = os.path.join(TOP, "crates", "conformance", "data", name)
    lines = [*head.strip().split("\n"), ""]
    for case in cases:
        lines += [*case, ""]
    with open(path, "w") as file:
        file.write("\n".join(lines[:-1]) + "\n")
