"""The loops that benches/peers makes with our libraries and with the crates elf and object, and their goals.

The Rust program reads with our library too, through bindings/rust and the library for C: its levels are c and bulk."""
import json
import os
import re
import shutil
import subprocess

import made
import measure

# The levels of the Rust program, and how the table calls them.
LEVELS = {
    "elf": "elf",
    "high": "object, high level",
    "low": "object, low level",
    "c": "ours through C",
    "bulk": "ours through C, in bulk or kept",
}
CRATE_OF_LEVEL = {"elf": "elf", "high": "object", "low": "object", "c": "nugwier", "bulk": "nugwier"}
# The goals through C, by our word: the level of ours, and the greatest ratio to another level. All records are fetched
# in chunks; at the level bulk a call fetches their names too.
GOALS_OF_C = {
    "opening": [("c", 0.3, "high")],
    "names": [("c", 1.0, "better"), ("bulk", 0.75, "better")],
    "relocations": [("c", 0.5, "high")],
    "section": [("c", 0.6, "high")],
    "no_section": [("c", 0.6, "high")],
    "gnu": [("c", 0.9, "better")],
    "no_gnu": [("c", 0.9, "better")],
}
BINDING = os.path.join(measure.TOP, "bindings", "rust")
ARCHIVES = os.path.join(measure.TOP, "bindings", "c")
# A turn has about this many items, and at least one pass. That of a count of instructions has fewer.
ITEMS = 50_000
COUNTED_ITEMS = 2_000
TURNS = 5


class Loop:
    """A loop: its name in the table, our word, the levels that have it, the items of a pass, and the goal: the greatest
    ratio of our cost to that of a level, or of the better level of object. The others may have another word."""

    def __init__(self, name, word, levels, items, at_most, of, their_word=None):
        self.name, self.word, self.items, self.at_most, self.of = name, word, items, at_most, of
        levels = levels.split() + ["c"]
        self.their_words = {level: f"{level}.{their_word or word}" for level in levels}


LOOPS = (
    Loop("opening", "opening", "elf high low", "files", 0.5, "high"),
    Loop("symbols", "symbols", "elf high low", "symbols", 1.2, "high"),
    Loop("symbols with names, as bytes", "names", "elf high low bulk", "symbols", 0.9, "better"),
    Loop("symbols with names, as text", "texts", "elf high", "symbols", 0.9, "better"),
    Loop("relocations with addends", "relocations", "elf high low", "relocations", 1.2, "high"),
    Loop("notes", "notes", "elf low", "notes", 0.5, "elf"),
    Loop("section by its name, there", "section", "elf high low", "files", 0.9, "better"),
    Loop("section by its name, not there", "no_section", "elf high low", "files", 0.9, "better"),
    Loop("GNU look-ups, there", "gnu", "elf low", "names", 0.9, "better"),
    Loop("GNU look-ups, not there", "no_gnu", "elf low", "names", 0.9, "better"),
    Loop("SysV look-ups, there", "sysv", "elf low", "names", 0.9, "better"),
    Loop("SysV look-ups, not there", "no_sysv", "elf low", "names", 0.9, "better"),
    Loop("versions of all symbols", "versions", "elf low", "symbols", 0.5, "elf"),
    Loop("versions of all symbols, by our index", "indexed_versions", "elf low bulk", "symbols", 0.5, "elf", "versions"),
)


class Measured:
    """A file that the loops read, with the names that are looked up and the items of a pass."""

    def __init__(self, name, library, path, there, absent):
        self.name = name
        self.words = [path, there, absent]
        with open(there, "rb") as file:
            names = file.read().count(b"\n")
        self.items = {
            "files": 1,
            "names": names,
            "symbols": library.dynamic_symbols(),
            "relocations": sum(section[5] // 24 for section in library.sections if section[1] == made.SHT_RELA),
            "notes": note_count(library),
        }

    def passes(self, loop, items):
        return max(1, items // max(1, self.items[loop.items]))


def note_count(library):
    """How many notes the note sections have."""
    data, count = library.data(), 0
    for section in library.sections:
        if section[1] == made.SHT_NOTE:
            place, end, align = section[4], section[4] + section[5], max(4, section[8])
            while place + 12 <= end:
                name, descriptor = (int.from_bytes(data[place + at:place + at + 4], "little") for at in (0, 4))
                place += -(-(12 + name) // align) * align
                place += -(-descriptor // align) * align
                count += 1
    return count


class Peers:
    """Our program, and the Rust program, if there is one, with its levels."""

    def __init__(self, ours, theirs, levels):
        self.ours, self.theirs, self.levels = ours, theirs, levels

    def their_words(self, loop):
        return {level: word for level, word in loop.their_words.items() if level in self.levels}

    def words(self, loop):
        return {"ours": loop.word, **self.their_words(loop)}

    def times(self, file):
        """For each loop the nanoseconds of an item by level, ours under `ours`. A checksum that differs is an error."""
        ours = [f"{loop.word}={file.passes(loop, ITEMS)}" for loop in LOOPS]
        theirs = {word: file.passes(loop, ITEMS) for loop in LOOPS for word in self.their_words(loop).values()}
        commands = [[self.ours, *file.words, str(TURNS), *ours]]
        if theirs:
            words = [f"{word}={passes}" for word, passes in theirs.items()]
            commands.append([self.theirs, *file.words, str(TURNS), *words])
        sums, least = {}, {}
        for _ in range(measure.RUNS):
            for command in commands:
                for word, checksum, nanoseconds in printed(command):
                    sums[word] = checksum
                    least[word] = min(least.get(word, float("inf")), int(nanoseconds))
            self.compare(file, sums)
        return [self.times_of(loop, file, least) for loop in LOOPS]

    def compare(self, file, sums):
        for loop in LOOPS:
            found = {level: sums[word] for level, word in self.words(loop).items()}
            if len(set(found.values())) > 1:
                each = ", ".join(f"{level} {checksum}" for level, checksum in found.items())
                raise SystemExit(f"another checksum: {loop.name}, {file.name}: {each}")

    def times_of(self, loop, file, least):
        items = file.items[loop.items] * file.passes(loop, ITEMS)
        return {level: least[word] / max(1, items) for level, word in self.words(loop).items()}

    def instructions(self, file):
        """The same in instructions, less those of a run without a turn. A turn has one pass more, which is not timed.
        `None` if valgrind is not there."""
        if not shutil.which("valgrind"):
            return None
        before = {"ours": collected([self.ours, *file.words, "0", "opening=1"])}
        for level in self.levels:
            before[level] = collected([self.theirs, *file.words, "0", f"{level}.opening=1"])
        counted = {}
        for loop in LOOPS:
            for level, word in self.words(loop).items():
                if word not in counted:
                    program = self.ours if level == "ours" else self.theirs
                    passes = file.passes(loop, COUNTED_ITEMS)
                    run = collected([program, *file.words, "1", f"{word}={passes}"]) - before[level]
                    counted[word] = run / max(1, file.items[loop.items] * (passes + 1))
        return [{level: counted[word] for level, word in self.words(loop).items()} for loop in LOOPS]


def printed(command):
    """The lines of a run, each split."""
    run = subprocess.run(command, capture_output=True, text=True)
    if run.returncode != 0:
        raise SystemExit(f"{' '.join(command)[:300]}: status {run.returncode}: {run.stderr.strip()}")
    return [line.split() for line in run.stdout.splitlines()]


def collected(command):
    """What callgrind counts of a run."""
    counting = ["valgrind", "--tool=callgrind", "--callgrind-out-file=/dev/null"]
    run = subprocess.run(counting + command, capture_output=True, text=True, check=True)
    return int(re.search(r"Collected : (\d+)", run.stderr).group(1))


def shown(cost):
    return f"{cost:.3g}" if cost < 1_000 else f"{cost:,.0f}"


def reference(costs, of):
    """The level to compare with, or `None`. The better one is elf if object has no such loop."""
    if of != "better":
        return of if of in costs else None
    levels = [level for level in ("high", "low") if level in costs]
    return min(levels, key=costs.get) if levels else reference(costs, "elf")


def row(loop, file, costs):
    """A row: the costs of an item, the ratio to the better level, and the goal beside its ratio."""
    cells = [loop.name, file.name, f"{file.items[loop.items]:,}", shown(costs["ours"])]
    cells += [shown(costs[level]) if level in costs else "" for level in LEVELS]
    better, of = reference(costs, "better"), reference(costs, loop.of)
    cells.append(f"{costs['ours'] / costs[better]:.2f} of {better}" if better else "")
    cells.append(goal(costs["ours"] / costs[of], of, loop.at_most) if of else "")
    cells.append("; ".join(goals_of_c(loop, costs)))
    return cells


def goals_of_c(loop, costs):
    for level, at_most, of in GOALS_OF_C.get(loop.word, []):
        of = reference(costs, of)
        if of and level in costs:
            yield goal(costs[level] / costs[of], of, at_most)


def goal(ratio, of, at_most):
    return f"{ratio:.2f} of {of}, at most {at_most}{'' if ratio <= at_most else ': missed'}"


HEADS = ["loop", "file", "items", "ours", *LEVELS.values(), "ratio", "goal", "goal through C"]


def build_rust(folder, elf, registry):
    """The Rust program with the crates that are named, and its levels. Prints a line for what is left out."""
    if not shutil.which("cargo"):
        print("cargo is not there, so elf and object are left out\n")
        return None, []
    is_built = os.path.exists(os.path.join(ARCHIVES, "libnugwier.a"))
    crates = {"elf": elf, "object": registry, "nugwier": BINDING if is_built else None}
    if not elf:
        print("elf is left out: --elf names the folder of its sources\n")
    if not registry:
        print("object is left out: --registry names the folder that has its sources and those of what it uses\n")
    if not is_built:
        print("our library through C is left out: make -C bindings/c builds it\n")
    given = [crate for crate, where in crates.items() if where]
    if not given:
        return None, []
    program = os.path.join(folder, "rust")
    shutil.copytree(os.path.join(measure.HERE, "peers", "src"), os.path.join(program, "src"))
    # bindings/rust has the names of the crate elf, so the loops are those of that crate.
    with open(os.path.join(program, "src", "with_elf.rs")) as file:
        loops = file.read().replace("use elf::", "use nugwier::").replace("the crate `elf`", "bindings/rust")
    with open(os.path.join(program, "src", "with_nugwier.rs"), "w") as file:
        file.write(loops)
    with open(os.path.join(measure.HERE, "peers", "Cargo.toml")) as file:
        lines = file.read().splitlines()
    with open(os.path.join(program, "Cargo.toml"), "w") as file:
        for line in lines:
            crate = line.split(" = ")[0]
            if crate == "elf" and elf:
                line = f"elf = {{ path = {json.dumps(os.path.abspath(elf))}, optional = true }}"
            if crate == "nugwier":
                line = f"nugwier = {{ path = {json.dumps(BINDING)}, optional = true }}"
            if crate not in crates or crates[crate]:
                file.write(line + "\n")
    command = ["cargo", "build", "--release", "--offline", "--features", ",".join(given)]
    if registry:
        path = json.dumps(os.path.abspath(registry))
        command += ["--config", 'source.crates-io.replace-with="registry"']
        command += ["--config", f"source.registry.directory={path}"]
    environment = {**os.environ, "CARGO_TARGET_DIR": "target", "NUGWIER_LIB_DIR": ARCHIVES}
    built = subprocess.run(command, cwd=program, capture_output=True, text=True, env=environment)
    if built.returncode != 0:
        why = " ".join(built.stderr.split())[-300:]
        print(f"{' and '.join(given)} left out, since cargo does not build the program: {why}\n")
        return None, []
    levels = [level for level in LEVELS if CRATE_OF_LEVEL[level] in given]
    return os.path.join(program, "target", "release", "peers"), levels
