"""Running programs, and telling what a run costs."""
import glob
import hashlib
import json
import os
import re
import shutil
import subprocess

HERE = os.path.dirname(os.path.realpath(__file__))
TOP = os.path.dirname(HERE)
PROGRAM = os.path.join(TOP, "elfshow")
BUILT = os.path.join(TOP, "crates", "elfshow_cli", "out", "elfshow_cli")
NUGWIER = os.path.join(TOP, "crates", "nugwier", "out", "nugwier")
RUNS = 7
# How often our library program checks a section in one run, as it goes over the symbols.
CHECKS = 20
# No more runs where they have taken so long together.
SECONDS = 6


def built():
    """The program, which has to be there before it is timed."""
    subprocess.run([PROGRAM], stderr=subprocess.DEVNULL)
    return BUILT


def built_nugwier():
    """The program for people, which has to be there before it is timed."""
    subprocess.run([os.path.join(TOP, "nugwier"), "--version"], stdout=subprocess.DEVNULL, stderr=subprocess.DEVNULL)
    return NUGWIER


def program_with_most_libraries():
    """The program of the machine for which ldd names the most libraries."""
    def libraries(path):
        return len(subprocess.run(["ldd", path], capture_output=True, text=True).stdout.splitlines())

    return max((path for path in glob.glob("/usr/bin/*") if is_elf(path)), key=libraries)


def is_elf(path):
    if not os.path.isfile(path):
        return False
    with open(path, "rb") as file:
        return file.read(4) == b"\x7fELF"


def built_callers():
    """The program that prints the results of the example callers; for no file it prints none."""
    crate = os.path.join(TOP, "crates", "elf_cases")
    subprocess.run(["rt", "run", "--", "build_id"], cwd=crate, stdout=subprocess.DEVNULL, stderr=subprocess.DEVNULL)
    return os.path.join(crate, "out", "elf_cases")


def build_program(name, folder):
    """One of our programs of this folder, beside a copy of the crates that it uses, with their outputs."""
    with open(os.path.join(HERE, name, "uses.txt")) as file:
        own = file.read()
    with open(os.path.join(TOP, "crates.txt")) as file:
        lines = [line for line in file.read().splitlines() if ":" in line and not line.startswith("#")]
    needs = {line.split(":")[0]: line.split(":")[1].split() for line in lines}
    wanted, found = own.split(":")[1].split(), []
    while wanted:
        crate = wanted.pop()
        if crate in needs and crate not in found:
            found.append(crate)
            wanted += needs[crate]
    program = os.path.join(folder, "crates", name)
    os.makedirs(os.path.join(program, "src"))
    with open(os.path.join(folder, "crates.txt"), "w") as file:
        file.write("".join(f"{crate}: {' '.join(needs[crate])}\n" for crate in found) + own)
    for crate in found:
        shutil.copytree(os.path.join(TOP, "crates", crate), os.path.join(folder, "crates", crate), symlinks=True)
    shutil.copy(os.path.join(HERE, name, "main.rt.txt"), os.path.join(program, "src", "main.rt"))
    run = subprocess.run(["rt", "run"], cwd=program, capture_output=True, text=True)
    built = os.path.join(program, "out", name)
    if not os.path.exists(built):
        raise SystemExit(f"{name} was not built: {(run.stdout + run.stderr)[-2000:]}")
    return built


def build_with_elf(folder, elf):
    """The folder of the programs of with_elf, which are built with the sources of the crate in the folder `elf`."""
    shutil.copytree(os.path.join(HERE, "with_elf"), folder)
    path = os.path.join(folder, "Cargo.toml")
    with open(path) as file:
        text = file.read()
    with open(path, "w") as file:
        file.write(text.replace('elf = "0.8.0"', f"elf = {{ path = {json.dumps(os.path.abspath(elf))} }}"))
    command = ["cargo", "build", "--release", "--offline"]
    run = subprocess.run(command, cwd=folder, capture_output=True, text=True, env={**os.environ, "CARGO_TARGET_DIR": "target"})
    if run.returncode != 0:
        raise SystemExit(f"with_elf was not built: {run.stderr[-2000:]}")
    return os.path.join(folder, "target", "release")


def processor_seconds(command, statuses):
    """What one run takes of the processors; its text goes nowhere."""
    actions = [(os.POSIX_SPAWN_OPEN, number, "/dev/null", os.O_WRONLY, 0) for number in ((1, 2) if 1 in statuses else (1,))]
    pid = os.posix_spawn(command[0], command, os.environ, file_actions=actions)
    _, status, usage = os.wait4(pid, 0)
    if os.waitstatus_to_exitcode(status) not in statuses:
        raise SystemExit(f"{' '.join(command)[:200]}: status {status}")
    return usage.ru_utime + usage.ru_stime


def least_seconds(commands, statuses=(0,)):
    """The least that each command takes of some runs, by turns. A run has to end with one of the statuses."""
    least = [float("inf")] * len(commands)
    total = 0
    for _ in range(RUNS):
        for number, command in enumerate(commands):
            seconds = processor_seconds(command, statuses)
            least[number] = min(least[number], seconds)
            total += seconds
        if total > SECONDS:
            break
    return least


def printed_nanoseconds(commands):
    """What each program prints of its own work: what it found, and the least nanoseconds of some runs, by turns."""
    printed = [[] for _ in commands]
    for _ in range(RUNS):
        for command, runs in zip(commands, printed):
            runs.append(subprocess.run(command, capture_output=True, check=True, text=True).stdout.split())
    return [(runs[0][0], min(int(run[1]) for run in runs)) for runs in printed]


def checked(command):
    """What checks of a hash section print: the symbols indexed and read, and the least nanoseconds of a check and of a pass
    over the symbols."""
    runs = [subprocess.run(command, capture_output=True, check=True, text=True).stdout.split() for _ in range(RUNS)]
    check, once = (min(int(run[k]) for run in runs) / CHECKS for k in (2, 3))
    indexed = runs[0][0].removeprefix("Some(").removesuffix(")")
    return indexed, runs[0][1], check, once


def bound(command):
    """What look-ups over libraries print: how many found a symbol with its version and without, and the least nanoseconds of
    both; then the same with an index of the versions."""
    runs = [subprocess.run(command, capture_output=True, check=True, text=True).stdout.split() for _ in range(RUNS)]
    return [(int(runs[0][k]), int(runs[0][k + 1]), *(min(int(run[k + j]) for run in runs) for j in (2, 3))) for k in (0, 4)]


def text_of(command):
    """A name for the text that a run writes."""
    digest = hashlib.sha256()
    with subprocess.Popen(command, stdout=subprocess.PIPE) as running:
        while part := running.stdout.read(1 << 20):
            digest.update(part)
    return digest.hexdigest()


def kibibytes_at_most(command):
    """The memory of a run at its highest, by GNU time; None where that is not there."""
    if not shutil.which("time"):
        return None
    timed = subprocess.run(["time", "-f", "%M"] + command, stdout=subprocess.DEVNULL, stderr=subprocess.PIPE, text=True)
    return int(timed.stderr.split()[-1])


def source_read(command, path):
    """How many reads of a file a run makes, and the bytes that they gave, by strace; None where that is not there."""
    if not shutil.which("strace"):
        return None
    traced = subprocess.run(
        ["strace", "-f", "-e", "trace=read,readv,pread64", "-P", path] + command,
        stdout=subprocess.DEVNULL,
        stderr=subprocess.PIPE,
        text=True,
    )
    given = [int(each) for each in re.findall(r"^[^\n]*read[^\n]* = (\d+)$", traced.stderr, re.MULTILINE)]
    return len(given), sum(given)
