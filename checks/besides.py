"""What `checks/fuzz` runs beside each of its runs, in a folder of its own, and what it judges there.

Each part of PARTS takes the files that a run found, its words and what it came to, and makes runs of its own of these:

- again: the run once more, with files made in another order and another environment: the same status, text and files;
- objects: `build` beside `asm` of each source and `link` of the objects: the same files, or the same refusal;
- containers: a scatter image beside its ELF executables and texts of records: all are made, `list` takes the executables, and
  each runs as the map does, where that isn't refused;
- many: an input with a line, an entry or a chunk that comes many times. Want of memory is an answer here, below the limit;
- outputs: an output with the name of an input: where it is done, it holds what it holds under another name;
- links: inputs that are links to a file, to nothing, to a folder and to /dev/null, or /dev/null itself, are as a file, as none, as a
  folder and as an empty file; outputs that are links come where these lead, and the links stay;
- kills: a command that is killed leaves each file as it was or as it was to be, and beside them `.armsdt-N` alone; made again
  behind that it does what it does elsewhere.

All these runs are also judged as all others are. A part draws its own numbers, so that it changes neither scenarios nor other parts.
"""
import collections
import os
import random
import re
import shutil
import stat
import time

PARTS = {"again": 0.5, "objects": 1, "containers": 1, "many": 0.2, "outputs": 0.5, "links": 0.4, "kills": 0.3}
DONE, REFUSED, UNREAD, UNWRITTEN, STOPPED, NO_MEMORY = 0, 1, 2, 3, 5, 6
MEMORY = 1_300_000_000
# Inputs are small, so that most runs take no more than the start of a process.
LONGEST = 1 << 16
STEPS = 3000
# From here on the memory of a run of `many`, in MiB, is told.
MUCH = 300
FOLDER = (b"folder",)
NULL = b"/dev/null"
# All memory up to the devices, and some behind them.
BANKS = [b"-mem", b"0", b"0xF0000000", b"-mem", b"0xF0001000", b"0x0FFFF000"]
# Names that no case has.
TARGET, FRESH = b"besides-target", b"besides-fresh"
LEFT = re.compile(rb"\.armsdt-[0-9]+")
# How many values stand behind the options of `build` and `link`.
OPTIONS = {b"-o": 1, b"-scatter": 1, b"-base": 1, b"-ram": 2, b"-elf": 0, b"-symbols": 0, b"-aif": 0, b"-reloc": 0, b"-bin": 0}
WRITERS = (b"asm", b"lib", b"link", b"build", b"burn", b"irqkit")
INPUTS = ("to a file", "to nothing", "to a folder", "to /dev/null", "/dev/null")
OUTPUTS = ("out to a file", "out to nothing", "out to /dev/null", "out is /dev/null")

Run = collections.namedtuple("Run", "status printed told files seconds memory")


class Wrong(Exception):
    """What isn't so, the files with which it began, and the commands."""


def link(target):
    return (b"link", target)


def written(files, after):
    return [name for name, data in after.items() if data != files.get(name)]


def differing(one, other):
    return [name for name in sorted({**one, **other}) if one.get(name) != other.get(name)]


def parsed(words):
    """The options of `build` or `link` and the places of the names, or None where words have no usual form."""
    options, places, at = {}, [], 1
    while at < len(words):
        word, at = words[at], at + 1
        if word in OPTIONS:
            values = words[at : at + OPTIONS[word]]
            if word in options or len(values) < OPTIONS[word] or any(value[:1] == b"-" for value in values):
                return None
            options[word], at = values, at + len(values)
        elif word[:1] == b"-":
            return None
        else:
            places.append(at - 1)
    return (options, places) if places and b"-o" in options else None


def output_of(words):
    """The place of the output's word, or None."""
    if words[:1] == [b"make-big"] and len(words) == 3:
        return 2
    option = b"-c" if words[:1] == [b"lib"] and b"-c" in words else b"-o"
    if not words or words[0] not in WRITERS or words.count(option) != 1 or words[-1] == option:
        return None
    return words.index(option) + 1


def of_many_files(words):
    """Whether a load file for each region is written beside the word of the output."""
    return b"-scatter" in words and b"-elf" not in words


def replaced(words, at, word):
    return [*words[:at], word, *words[at + 1 :]]


class Many:
    """Inputs that ask for much, none of them much longer than LONGEST."""

    def __init__(self, kind_of):
        self.kind_of = kind_of

    def file(self, rng, data):
        kind = self.kind_of(data)
        if kind in ("object", "library"):
            return self.chunks(rng, data, kind)[: 2 * LONGEST]
        if data[:4] == b"\x7fELF" and len(data) >= 84:
            return self.segments(rng, data)
        if kind == "image":
            return self.slices(rng, data)
        return self.source(rng, data) if kind == "source" and rng.random() < 0.5 else self.lines(rng, data)

    def times(self, rng, data, one):
        most = max(1, (LONGEST - len(data)) // max(1, len(one)))
        return rng.choice((most, most, min(most, 1000), min(most, 66)))

    def slices(self, rng, data):
        at = rng.randrange(len(data) + 1) & ~3
        one = data[at : at + rng.choice((4, 8, 16, 20, 32))]
        return data[:at] + one * self.times(rng, data, one) + data[at:]

    def lines(self, rng, data):
        lines = data.split(b"\n")
        at = rng.randrange(len(lines))
        if rng.random() < 0.3:
            tokens = re.split(rb"(\w+|[^\w\s])", lines[at])
            place = rng.randrange(len(tokens))
            one = b"".join(tokens[place : place + rng.choice((1, 1, 2, 3))])
            tokens.insert(place, one * self.times(rng, data, one))
            lines[at] = b"".join(tokens)
        else:
            some = lines[at : at + rng.choice((1, 1, 2, 4))]
            lines[at:at] = some * self.times(rng, data, b"\n".join([*some, b""]))
        return b"\n".join(lines)

    def source(self, rng, data):
        """Macros that call the one before twice, loops in loops, openings without an end, long texts and large spaces."""
        depth, wide = rng.choice((3, 10, 17, 25, 200)), rng.choice((1, 2, 3, 40))
        body = rng.choice((b" DCD 1\n", b" NOP\n", b"$l DCD $l\n", b' DCB "' + b"a" * 200 + b'"\n', b" SPACE 0x1000000\n", b" LTORG\n"))
        macros = b"".join(b" MACRO\n$l m%d\n%s MEND\n" % (it, b" m%d\n" % (it - 1) * wide if it else body) for it in range(depth))
        doubled = b' GBLS s\ns SETS "abcdefgh"\n' + b"s SETS s:CC:s\n" * depth + b" DCB s\n"
        loops = b"".join(b" GBLA n%d\nn%d SETA 0\n WHILE n%d < 50\nn%d SETA n%d + 1\n" % ((it,) * 5) for it in range(depth % 7))
        pools = b"".join(b" LDR r0,=0x%X\n" % (it * 0x10001) for it in range(depth * 100))
        labels = b"".join(b"l%d B l%d\n EXPORT l%d\n" % (it, it // 2, it) for it in range(depth * 10))
        nested = rng.choice((b" IF {TRUE}\n", b" WHILE {TRUE}\n", b" MACRO\n m\n", b" GET t.s\n", b" DCD (((((((((((((((1\n"))
        area = b" AREA many,CODE\n"
        choices = (macros + area + b" m%d\n" % (depth - 1), area + doubled, area + loops + body + b" WEND\n" * (depth % 7))
        more = rng.choice((*choices, choices[0], area + pools, area + labels, nested * (depth * wide), area + b" ALIGN 0x8000,1\n" * depth))
        return rng.choice((more + data, more + b" END\n"))[: 2 * LONGEST]

    def segments(self, rng, data):
        """An ELF executable with one program header many times, behind the rest."""
        one = bytearray(data[52:84])
        if rng.random() < 0.5:
            one[16:20] = len(data).to_bytes(4, "little")
            one[20:24] = rng.choice((len(data), 0x10000000, 0xFFFFFFFF)).to_bytes(4, "little")
        count = self.times(rng, data, one)
        heads = bytes(one) * count
        if rng.random() < 0.5:
            heads = b"".join(one[:12] + (it << 16).to_bytes(4, "little") + one[16:] for it in range(count))
        new = bytearray(data + heads)
        new[28:32], new[44:46] = len(data).to_bytes(4, "little"), count.to_bytes(2, "little")
        return bytes(new)

    def chunks(self, rng, data, kind):
        """An object or a library in which an entry of a chunk comes many times, or a chunk does."""
        count = int.from_bytes(data[8:12], "little")
        if not 0 < count <= 64 or len(data) < 12 + 16 * count:
            return self.slices(rng, data)
        rows = [data[12 + 16 * it : 28 + 16 * it] for it in range(count)]
        chosen = rng.randrange(count)
        place, size = (int.from_bytes(rows[chosen][at : at + 4], "little") for at in (8, 12))
        if rng.random() < 0.25 or size < 4 or place + size > len(data):
            return self.more_chunks(rng, data, rows, chosen)
        body = data[place : place + size]
        at = rng.randrange(0, size, 4)
        if kind == "library":
            step = int.from_bytes(body[4:8], "little") if rows[chosen][:8] == b"LIB_DIRY" and len(body) >= 8 else 4
            at, one = (0, body[: step & 0xFFFF]) if step > 4 else (at, body[at : at + 16])
        else:
            one = body[at : at + {b"OBJ_SYMT": 16, b"OBJ_HEAD": 20, b"OBJ_AREA": 8}.get(rows[chosen][:8], 4)]
            if rows[chosen][:8] == b"OBJ_HEAD" and size >= 44:
                at, one = size, bytes(body[24:28] + (0x1002).to_bytes(4, "little") + body[32:36] + bytes(8))
            elif rows[chosen][:8] == b"OBJ_SYMT" and size >= 16:
                at, one = size, body[size - 16 :]
        times = self.times(rng, data + body, one or b"x")
        new = bytearray(data + body[:at] + one * times + body[at:])
        new[20 + 16 * chosen : 28 + 16 * chosen] = len(data).to_bytes(4, "little") + (len(new) - len(data)).to_bytes(4, "little")
        self.counted(rows, chosen, new, len(data), times)
        return bytes(new)

    def counted(self, rows, chosen, new, moved, times):
        """Adds to the counts of an object's head: of its areas, of its symbols or of its first area's relocations."""
        heads = [int.from_bytes(row[8:12], "little") for row in rows if row[:8] == b"OBJ_HEAD"]
        offset = {b"OBJ_HEAD": 8, b"OBJ_SYMT": 12, b"OBJ_AREA": 36}.get(rows[chosen][:8])
        if heads and offset:
            at = (moved if rows[chosen][:8] == b"OBJ_HEAD" else heads[0]) + offset
            total = int.from_bytes(new[at : at + 4], "little") + times & 0xFFFFFFFF
            if at + 4 <= len(new):
                new[at : at + 4] = total.to_bytes(4, "little")

    def more_chunks(self, rng, data, rows, chosen):
        """The chunk's row many times, with all places that much further."""
        times = rng.choice((1, 100, (LONGEST - len(data)) // 16 if len(data) < LONGEST else 1))
        some = [*rows[: chosen + 1], *[rows[chosen]] * times, *rows[chosen + 1 :]]
        moved = [row[:8] + (int.from_bytes(row[8:12], "little") + 16 * times & 0xFFFFFFFF).to_bytes(4, "little") + row[12:] for row in some]
        head = data[:4] + len(some).to_bytes(4, "little") * 2
        return head + b"".join(moved) + data[12 + 16 * len(rows) :]


class Besides:
    def __init__(self, folder, parts, seed, kind_of, judged, bound):
        """The folder is one of its own, in which the process stays only while a part runs."""
        self.folder, self.parts, self.seed, self.judged, self.bound = folder, parts, seed, judged, bound
        self.amplified = Many(kind_of)

    def of(self, number, run, files, words, first):
        """What each part came to for a run: its name, how it went, and what is wrong, with files and commands, or None."""
        here, came = os.getcwd(), []
        self.folder.enter()
        for part in self.parts:
            rng = random.Random(f"{self.seed}:{number}:{run}:{part}")
            if rng.random() >= PARTS[part]:
                continue
            try:
                how, wrong = getattr(self, part)(rng, dict(files), list(words), first), None
            except Wrong as found:
                how, wrong = "wrong", (part, *found.args)
            if how:
                came.append((part, how, wrong))
        self.folder.leave(here)
        return came

    def become(self, files):
        for name in os.listdir(b"."):
            if os.path.isdir(name) and not os.path.islink(name):
                shutil.rmtree(name)
            else:
                os.unlink(name)
        put(files)

    def files(self):
        found = {}
        for name in sorted(os.listdir(b".")):
            if os.path.islink(name):
                found[name] = link(os.readlink(name))
            elif os.path.isdir(name):
                found[name] = FOLDER
            else:
                with open(name, "rb") as file:
                    found[name] = file.read()
        return found

    def run(self, files, words, through=(), before=(), little_memory=True, environment=None):
        """What a command makes of these files; it may change those that links lead `through`."""
        self.become(files)
        began = time.monotonic()
        outcome = self.folder.run(words, environment or {})
        seconds, after = time.monotonic() - began, self.files()
        changed = [name for name in written(files, after) if name not in through]
        wrong, status = self.judged(words, outcome, changed, [name for name in files if name not in after])
        bounded = not little_memory and status == NO_MEMORY and outcome[1].ru_maxrss * 1024 <= MEMORY
        if wrong and not (bounded and wrong[0] == "memory"):
            raise Wrong(f"{wrong[0]}: {wrong[1]}", files, [*before, words])
        return Run(status, self.folder.printed(), outcome[3], after, seconds, outcome[1].ru_maxrss >> 10)

    def alike(self, what, run, wanted, files, commands, expected=None):
        """Both have the same status and text, and leave the same files, or those that are expected."""
        if (run.status, run.told) != (wanted.status, wanted.told):
            raise Wrong(f"{what}: exit status {run.status} {run.told[:80]}, not {wanted.status} {wanted.told[:80]}", files, commands)
        if run.printed != wanted.printed:
            raise Wrong(f"{what}: it prints {run.printed[:80]}, not {wanted.printed[:80]}", files, commands)
        self.same_files(what, run.files, wanted.files if expected is None else expected, files, commands)

    def same_files(self, what, after, expected, files, commands):
        different = differing(after, expected)
        if different:
            raise Wrong(f"{what}: other files than wanted: {different}", files, commands)

    def again(self, _rng, files, words, first):
        if first.status < 0:
            return None
        backwards = dict(reversed(files.items()))
        other = self.run(backwards, words, environment={b"PADDING": b"x" * 3000, b"TZ": b"Asia/Tokyo", b"LC_ALL": b"C.UTF-8"})
        self.alike("made again", other, first, files, [words, words])
        return f"status {other.status}"

    def objects(self, _rng, files, words, first):
        form = parsed(words) if words[:1] == [b"build"] and first.status in (DONE, REFUSED, UNREAD) else None
        if form is None:
            return None
        options, places = form
        objects = {words[at]: words[at][:-2] + b".o" for at in places if words[at].endswith(b".s")}
        if any(name in words or name in files or name in first.files for name in objects.values()):
            return None
        made, commands = {}, [words]
        for source, name in objects.items():
            commands.append([b"asm", source, b"-o", name])
            run = self.run(files, commands[-1], before=commands[:-1])
            if run.status != DONE:
                if first.status == DONE:
                    raise Wrong(f"build is done, and asm of {source} has exit status {run.status}", files, commands)
                return "an asm isn't done"
            made[name] = run.files[name]
        names = [objects.get(word, word) if at in places else word for at, word in enumerate(words)]
        commands.append([b"link", *names[1:]])
        run = self.run({**files, **made}, commands[-1], before=commands[:-1])
        numbers = [it.told.split()[1:2] if it.status == REFUSED else it.told for it in (first, run)]
        if run.status != first.status or numbers[0] != numbers[1]:
            text = f"build has exit status {first.status} {first.told[:80]}, link {run.status} {run.told[:80]}"
            raise Wrong(text, files, commands)
        after = {name: data for name, data in run.files.items() if name not in made}
        self.same_files("link of asm", after, first.files, files, commands)
        return f"status {run.status}, {'sources' if objects else 'no source'}"

    def containers(self, rng, files, words, first):
        form = parsed(words) if words[:1] in ([b"build"], [b"link"]) and first.status == DONE else None
        if form is None or b"-scatter" not in form[0] or b"-elf" in form[0] or b"\n" in form[0][b"-o"][0]:
            return None
        out, steps = form[0][b"-o"][0], [b"-steps", b"%d" % rng.choice((10, 200, STEPS, 10 * STEPS))]
        steps += rng.choice((BANKS, BANKS, []))
        commands = [words, [b"run", b"-map", out + b".map", *steps]]
        mapped = self.run(first.files, commands[1], before=[words])
        for more in ([b"-elf"], [b"-elf", b"-symbols"]):
            made = self.done(files, [words[0], *more, *words[1:]], commands)
            self.runs_as(mapped, made.files, [b"run", b"-elf", out, *steps], commands)
            self.done(made.files, [b"list", out], commands)
        for form in (b"-ihex", b"-srec"):
            text = FRESH + form
            made = self.done(first.files, [b"burn", form, b"-map", out + b".map", b"-o", text], commands)
            self.runs_as(mapped, made.files, [b"run", b"-burned", text, *steps], commands)
        return f"of the map status {mapped.status}"

    def done(self, files, words, commands):
        run = self.run(files, words, before=commands)
        if run.status != DONE:
            raise Wrong(f"it should be done, and says {run.told[:80]}", files, [*commands, words])
        return run

    def runs_as(self, mapped, files, words, commands):
        """A run of another container ends as that of the map; where the map's is refused, it may be refused or not."""
        run = self.run(files, words, before=commands)
        if mapped.status in (DONE, STOPPED):
            self.alike("another container", run, mapped, files, [*commands, words], files)

    def many(self, rng, files, words, first):
        names = [name for name in files if name in words]
        if not names or first.status < 0:
            return None
        for name in rng.sample(names, rng.choice((1, 1, min(2, len(names))))):
            files[name] = self.amplified.file(rng, files[name])
        self.become(files)
        self.bound(self.folder, words)
        run = self.run(self.files(), words, little_memory=False)
        large = ", over a second" * (run.seconds > 1) + f", over {MUCH} MiB" * (run.memory > MUCH)
        return f"status {run.status}{large}"

    def outputs(self, rng, files, words, first):
        at = output_of(words)
        if at is None or first.status != DONE:
            return None
        names = sorted(name for name in files if name in words[:at] + words[at + 1 :])
        # (a file that a source gets, or one that a map names)
        if rng.random() < 0.2 and not of_many_files(words):
            names = sorted(files)
        if not names:
            return None
        name = rng.choice(names)
        if of_many_files(words):
            return self.output_of_many(rng, files, words, first, name)
        wanted = self.run(files, replaced(words, at, FRESH))
        command = replaced(words, at, name)
        run = self.run(files, command)
        if wanted.status == run.status == DONE:
            expected = {**files, name: wanted.files[FRESH]}
            self.same_files(f"{name} is input and output", run.files, expected, files, [command])
            if run.printed != wanted.printed:
                raise Wrong(f"it prints {run.printed[:80]}, not {wanted.printed[:80]}", files, [command])
        elif run.status == DONE:
            raise Wrong(f"it is done, but with another name {wanted.told[:80]}", files, [command])
        return f"status {run.status}"

    def output_of_many(self, rng, files, words, first, name):
        """An input that isn't called by its contents gets the name of a load file or the map."""
        new = rng.choice(written(files, first.files) or [name])
        uncalled = b"LIB_DIRY" in files[name] if files[name][:4] == b"\xc5\xc6\xcb\xc3" else b"{" in files[name]
        if not uncalled or new in files or name[-2:] == b".s":
            return None
        command = [new if word == name else word for word in words]
        files = {new if it == name else it: data for it, data in files.items()}
        run = self.run(files, command)
        if run.status == DONE:
            expected = {**{it: data for it, data in first.files.items() if it != name}}
            self.same_files(f"{new} is input and output", run.files, expected, files, [command])
        return f"of a region or the map: status {run.status}"

    def links(self, rng, files, words, first):
        how, at = rng.choice(INPUTS + OUTPUTS), output_of(words)
        if first.status < 0 or (how in OUTPUTS and at is None):
            return None
        if how in INPUTS:
            out = words[at] if at else None
            names = [it for it in sorted(files) if it != out and it not in written(files, first.files)]
            named = [it for it in names if it in words]
            name = rng.choice(named if named and rng.random() < 0.8 else names) if names else None
            return name and self.input_link(how, name, files, words, first)
        return self.output_link(rng, how, files, words, first, at)

    def input_link(self, how, name, files, words, first):
        plain = {it: data for it, data in files.items() if it != name}
        if how == "/dev/null":
            # (a member's name is no file, and a source is told by its name)
            member = words[:1] == [b"lib"] and b"-e" in words
            if name not in words or member or (words[0] in (b"build", b"report") and name[-2:] == b".s"):
                return None
            wanted, command = self.run({**plain, name: b""}, words), [NULL if word == name else word for word in words]
            run = self.run(files, command)
            if run.status != wanted.status or run.told.split()[:2] != wanted.told.split()[:2] or run.printed != wanted.printed:
                raise Wrong(f"/dev/null: {run.status} {run.told[:80]}, an empty file: {wanted.status} {wanted.told[:80]}", files, [command])
            return f"{how}: status {run.status}"
        kinds = {"to a file": files[name], "to nothing": None, "to a folder": FOLDER, "to /dev/null": b""}
        target = NULL if how == "to /dev/null" else TARGET
        beside = {} if how in ("to nothing", "to /dev/null") else {target: kinds[how]}
        as_is = plain if kinds[how] is None else {**plain, name: kinds[how]}
        wanted = first if how == "to a file" else self.run(as_is, words)
        if name in written(as_is, wanted.files):
            return None
        linked = {**plain, name: link(target), **beside}
        run = self.run(linked, words)
        self.alike(f"{name} is a link {how}", run, wanted, linked, [words], {**wanted.files, name: link(target), **beside})
        return f"{how}: status {run.status}"

    def output_link(self, rng, how, files, words, first, at):
        many = of_many_files(words)
        outs = written(files, first.files) if many and first.status == DONE else [words[at]]
        name = rng.choice(outs or [b""])
        # (a word that is no UTF-8 is refused before all else, and one that begins with - may be an option)
        usual = re.fullmatch(rb"[!-,.0-~][!-.0-~]{0,199}", name)
        if not usual or name in words[:at] + words[at + 1 :] or (name in files and many):
            return None
        if how == "out is /dev/null":
            command = replaced(words, at, NULL)
            if many:
                return None
            run, expected = self.run(files, command), files
            linked, commands = files, [command]
        else:
            target = NULL if how == "out to /dev/null" else TARGET
            linked = {**files, name: link(target), **({target: b"old"} if how == "out to a file" else {})}
            run, commands = self.run(linked, words, through=(target,)), [words]
            expected = dict(linked)
            if run.status == DONE:
                new = {it: data for it, data in first.files.items() if it != name}
                expected = {**expected, **new, **({} if target == NULL else {target: first.files.get(name)})}
        if run.status != first.status or (first.status == REFUSED and run.told.split()[:2] != first.told.split()[:2]):
            text = f"{how}: exit status {run.status} {run.told[:80]}, not {first.status} {first.told[:80]}"
            raise Wrong(text, linked, commands)
        self.same_files(how, run.files, expected, linked, commands)
        if not stat.S_ISCHR(os.stat(NULL).st_mode):
            raise Wrong("/dev/null is no device any more", linked, commands)
        return f"{how}: status {run.status}"

    def kills(self, rng, files, words, first):
        names = written(files, first.files)
        if first.status != DONE or not names or any(name in files for name in names):
            return None
        for name in names:
            if rng.random() < 0.8:
                files[name] = b"old " + first.files[name][::-1]
        whole = self.run(files, words)
        self.same_files("beside old outputs", whole.files, first.files, files, [words])
        ended, left_one = 0, False
        for _ in range(4):
            share = rng.random()
            self.become(files)
            ended += self.folder.killed(words, share * whole.seconds)
            after, text = self.files(), f"killed after {share:.2f} of {1000 * whole.seconds:.2f} ms"
            for name, data in after.items():
                if data not in (files.get(name), whole.files.get(name)) and not LEFT.fullmatch(name):
                    raise Wrong(f"{text}, {name} is neither old nor new", files, [words])
            if set(files) - set(after):
                raise Wrong(f"{text}, {sorted(set(files) - set(after))} are gone", files, [words])
            behind = self.run(after, words)
            left = {name: data for name, data in after.items() if LEFT.fullmatch(name)}
            left_one = left_one or left != {}
            self.alike(f"{text}, and run again", behind, whole, after, [words], {**whole.files, **left})
        return f"{ended} of 4 killed" + ", a file left" * left_one


def put(files):
    """Makes files, links and folders where the process is."""
    for name, data in files.items():
        if data == FOLDER:
            os.mkdir(name)
        elif isinstance(data, tuple):
            os.symlink(data[1], name)
        else:
            with open(name, "wb") as file:
                file.write(data)
            os.utime(name, (0, 0))
