#!/usr/bin/env python3
"""Runs Keel and other stores side by side on one folder, and prints what they take, with ratios.

    bench/run.py crates/keel_cli/out/keel_cli

PROGRAM is the built program of Keel. The peers are RocksDB, LevelDB, SQLite and a bare log, which `peers.cc` makes
programs of the same language; one that can't be built here is left out, and the first lines say so. On Debian they need
g++, librocksdb-dev, libleveldb-dev and libsqlite3-dev.

Each program is run as a process with the same workload on standard input. Its processor time is the one that the
system counted for it, user and system together; its wall time goes from the start to the end of the process. What an
operation takes is the difference of two runs, one with the operations and one without, divided by their count. Every
run has its own copy of a prepared folder. The programs take turns, for some rounds.

Other work on the machine adds to a run's processor time and takes nothing from it, so of the rounds the least counts
there: the least of the runs with the operations, less the least of those without. Of the wall times the middle
difference counts. A `?` stands where no difference was found, of the wall times in a quarter of the rounds. The replies
to all reads must be the same in all programs.
"""

import argparse
import hashlib
import os
import pathlib
import random
import re
import resource
import shutil
import statistics
import subprocess
import sys
import tempfile
import time

HERE = pathlib.Path(__file__).resolve().parent
PEERS = {"RocksDB": ("ROCKSDB", "-lrocksdb"), "LevelDB": ("LEVELDB", "-lleveldb"), "SQLite": ("SQLITE", "-lsqlite3"),
         "log": ("LOG",)}
PARTS = ["put", "sync", "get", "scan", "open", "reads"]
PLAIN = {b"option", b"opened", b"quiet", b"ok"}
READS = {b"value", b"absent", b"row", b"rows"}

OPEN = ["option write_buffer 67108864", "open"]
BOOT = OPEN + ["drain 1000000"]


def key(number):
    return f"k{number:015d}"


def numbers(count, order, seed=1):
    if order == "one key":
        return [0] * count
    listed = list(range(count))
    if order == "shuffled":
        random.Random(seed).shuffle(listed)
    return listed


def puts(count, order="shuffled", tail=""):
    values = random.Random(2)
    return [f"put {key(number)} {values.randbytes(50).hex()}{tail}" for number in numbers(count, order)]


def gets(count, of):
    return [f"get {key(number)}" for number in numbers(of, "shuffled", 3)[:count]]


def scans(count, of):
    begins = random.Random(4)
    froms = [begins.randrange(of - 100) for _ in range(count)]
    return [f"scan {key(at)} {key(at + 100)}" for at in froms]


class Program:
    """A store as a program: its words, without the folder, and what is left of the runs in `space`."""

    def __init__(self, name, words, space):
        self.name, self.words, self.space = name, words, space

    def prepare(self, runs):
        """A folder behind some runs, made once. It is left alone then."""
        made = self.space / f"{self.name} {'+'.join(name for name, _ in runs)}"
        if not made.exists():
            made.mkdir()
            for name, lines in runs:
                self.run(made, name, lines)
        return made

    def copy(self, prepared):
        folder = self.space / "store"
        shutil.rmtree(folder, ignore_errors=True)
        shutil.copytree(prepared, folder)
        os.sync()
        return folder

    def run(self, folder, name, lines, before=()):
        """Runs the program over a folder: the processor time, the wall time, and the digest of what it read."""
        workload = self.space / f"{name}.keel"
        if not workload.exists():
            workload.write_text("\n".join(lines) + "\n")
        replies = self.space / "replies"
        with open(workload, "rb") as source, open(replies, "wb") as sink:
            begin = time.perf_counter()
            process = subprocess.Popen([*before, *self.words, str(folder)], stdin=source, stdout=sink)
            _, status, used = os.wait4(process.pid, 0)
            wall = time.perf_counter() - begin
            process.returncode = os.waitstatus_to_exitcode(status)
        if process.returncode:
            sys.exit(f"{self.name} ended `{name}` with status {process.returncode}")
        digest = hashlib.sha256()
        with open(replies, "rb") as lines_back:
            for line in lines_back:
                word = line.split(None, 1)[0]
                if word in READS:
                    digest.update(line)
                elif word not in PLAIN:
                    sys.exit(f"{self.name} answered in `{name}`: {line.decode().strip()}")
        return used.ru_utime + used.ru_stime, wall, digest.hexdigest()

    def peak(self, folder, lines):
        """The greatest memory of a run, in bytes: asked for behind its last reply, before its input ends."""
        process = subprocess.Popen([*self.words, str(folder)], stdin=subprocess.PIPE, stdout=subprocess.PIPE)
        process.stdin.write("".join(line + "\n" for line in lines).encode())
        process.stdin.flush()
        for _ in lines:
            process.stdout.readline()
        status = pathlib.Path(f"/proc/{process.pid}/status").read_text()
        process.stdin.close()
        process.wait()
        return int(re.search(r"VmHWM:\s+(\d+) kB", status)[1]) * 1024


class Bench:
    def __init__(self, programs, rounds):
        self.programs, self.rounds = programs, rounds

    def compare(self, title, count, base, full, setup=(), without=()):
        """A row of processor time and one of wall time: microseconds for one of `count`, and Keel's over them.

        Base and full are a name and lines each; without a base it is what the whole run takes, in milliseconds."""
        taking = [program for program in self.programs if program.name not in without]
        took = {program.name: [] for program in taking}
        read = {}
        for _ in range(self.rounds):
            for program in taking:
                prepared = program.prepare(setup)
                less = program.run(program.copy(prepared), *base)[:2] if base else (0, 0)
                *more, digest = program.run(program.copy(prepared), *full)
                took[program.name].append((less, more))
                read.setdefault(digest, set()).add(program.name)
        if len(read) > 1:
            sys.exit(f"{title}: the reads aren't the same in {' and '.join(map(str, read.values()))}")
        scale = (1e6 if base else 1e3) / count
        rows = []
        for difference in (of_processor, of_wall):
            found = {name: difference(runs) * scale for name, runs in took.items()}
            cells = [cell(found, program.name) for program in self.programs]
            rows.append(f"| {title} | {' | '.join(cells)} |")
        return rows

    def table(self, title, unit, rows):
        names = [program.name for program in self.programs]
        head = "| | " + " | ".join(names) + " |\n|---" + "|---:" * len(names) + "|"
        for which, kind in enumerate(("Processor time", "Wall time")):
            print(f"\n{title}. {kind}, {unit}; in brackets Keel's over it.\n\n{head}")
            for row in rows:
                print(row[which])
        sys.stdout.flush()


def of_processor(runs):
    return min(more[0] for _, more in runs) - min(less[0] for less, _ in runs)


def of_wall(runs):
    found = sorted(more[1] - less[1] for less, more in runs)
    return statistics.median(found) if found[len(found) // 4] > 0 else 0


def cell(found, name):
    if name not in found:
        return ""
    if found[name] <= 0:
        return "?"
    ratio = f" ({figure(found['Keel'] / found[name])})" if name != "Keel" and found["Keel"] > 0 else ""
    return figure(found[name]) + ratio


def figure(value):
    return f"{value:,.0f}" if abs(value) >= 100 else f"{value:.1f}" if abs(value) >= 10 else f"{value:.2f}"


def build(space):
    """The peers that can be built here, and why the others can't."""
    built, missing = [], []
    for name, (store, *libraries) in PEERS.items():
        target = space / f"peer-{name}"
        words = ["g++", "-O2", "-std=c++17", f"-DSTORE={store}", "-o", str(target), str(HERE / "peers.cc"), *libraries]
        try:
            made = subprocess.run(words, capture_output=True, text=True)
            why = next((line for line in made.stderr.splitlines() if "error" in line), "") if made.returncode else None
        except OSError as error:
            why = str(error)
        if why is None:
            built.append((name, [str(target)]))
        else:
            missing.append(f"{name} is left out: {why}")
    return built, missing


def machine(folder):
    model = re.search(r"model name\s*: (.*)", pathlib.Path("/proc/cpuinfo").read_text())
    mounts = [line.split() for line in pathlib.Path("/proc/mounts").read_text().splitlines()]
    below = max((at for at in mounts if folder.is_relative_to(at[1])), key=lambda at: len(at[1]))
    return (f"{os.cpu_count()} cores, {model[1] if model else os.uname().machine}, kernel {os.uname().release}, "
            f"{below[2]}")


def blocks(keel, setup, count, of):
    """What a get from a table reads behind the first one, as strace sees it: places, calls of read, and bytes."""
    found = []
    for more in (1, 1 + count):
        trace = keel.space / "trace"
        keel.run(keel.copy(keel.prepare(setup)), f"boot, get {more} of {of}", BOOT + gets(more, of),
                 ["strace", "-f", "-qq", "-s", "0", "-e", "trace=lseek,read,pread64", "-o", str(trace)])
        calls = re.findall(r"(lseek|read|pread64)\((\d+),.* = (\d+)$", trace.read_text(), re.MULTILINE)
        reads = [int(size) for call, file, size in calls if call != "lseek" and file != "0"]
        found.append((sum(call != "read" for call, *_ in calls), len(reads), sum(reads)))
    return [(b - a) / count for a, b in zip(*found)]


def main():
    parser = argparse.ArgumentParser(description=__doc__, formatter_class=argparse.RawDescriptionHelpFormatter)
    parser.add_argument("program", metavar="PROGRAM", help="the built program of Keel")
    parser.add_argument("--rounds", type=int, default=5)
    parser.add_argument("--sizes", default="1000,10000,100000", help="counts of puts, at least 1000 each")
    parser.add_argument("--synced", type=int, default=2000, help="the count of puts with sync")
    parser.add_argument("--parts", default=",".join(PARTS), help="of " + ", ".join(PARTS))
    parser.add_argument("--folder", help="where the stores stand; else in the folder for temporary files")
    parser.add_argument("--no-peers", action="store_true")
    asked = parser.parse_args()
    sizes = [int(size) for size in asked.sizes.split(",")]
    parts = asked.parts.split(",")

    # Of a log with more than some 34,000 records an opening of Keel needs more than the usual stack of 8 MiB.
    resource.setrlimit(resource.RLIMIT_STACK, (64 << 20, resource.getrlimit(resource.RLIMIT_STACK)[1]))
    space = pathlib.Path(tempfile.mkdtemp(prefix="keel_bench_", dir=asked.folder)).resolve()
    try:
        built, missing = ([], []) if asked.no_peers else build(space)
        programs = [Program("Keel", [str(pathlib.Path(asked.program).resolve()), "dir"], space)]
        programs += [Program(name, words, space) for name, words in built]
        print(f"{time.strftime('%Y-%m-%d %H:%M')}, {machine(space)}, load {os.getloadavg()[0]:.1f}")
        for name, words in built:
            print(subprocess.run(words, capture_output=True, text=True).stdout.strip(), end="; ")
        print(f"rounds: {asked.rounds}", *missing, sep="\n", flush=True)
        measure(Bench(programs, asked.rounds), parts, sizes, asked.synced)
        print(f"\nload at the end {os.getloadavg()[0]:.1f}")
    finally:
        shutil.rmtree(space, ignore_errors=True)


def measure(bench, parts, sizes, synced):
    boot = ("boot", BOOT)
    log = {n: (f"put {n} shuffled", BOOT + puts(n)) for n in sizes}
    with_table = {n: (log[n], boot) for n in sizes}
    in_memory = [("the memtable", n, log[n], ()) for n in sizes]
    in_tables = [("a table", n, boot, with_table[n]) for n in sizes]
    greatest = max(sizes)
    no_reads = ["log"]

    if "put" in parts:
        rows = [bench.compare("an empty folder", 1, None, boot)]
        bench.table("A run that opens and ends", "ms", rows)
        rows = []
        for order in ("shuffled", "rising", "one key"):
            for n in sizes:
                full = (f"put {n} {order}", BOOT + puts(n, order))
                rows.append(bench.compare(f"{n:,} puts, {order}", n, boot, full))
        bench.table("Puts without sync", "µs a put", rows)
    if "sync" in parts:
        full = (f"put {synced} sync", BOOT + puts(synced, tail=" sync"))
        bench.table("Puts with sync", "µs a put", [bench.compare(f"{synced:,} puts", synced, boot, full)])
    if "get" in parts:
        rows = []
        for place, n, base, setup in in_memory + in_tables:
            again = max(2, 40000 // n)
            full = (f"{base[0]}, get {n}", base[1] + gets(n, n) * again)
            rows.append(bench.compare(f"{n:,} keys, in {place}", n * again, base, full, setup, no_reads))
        bench.table("Gets, all keys, shuffled, and again", "µs a get", rows)
    if "scan" in parts:
        rows = []
        # A scan goes through the whole memtable, so a great one would take long.
        places = [place for place in in_memory if place[1] <= 10000] + in_tables
        for place, n, base, setup in places:
            again = max(2, 200000 // n)
            full = (f"{base[0]}, scan {n}", base[1] + ["scan % %"] * again)
            rows.append(bench.compare(f"a row of all {n:,}, in {place}", n * again, base, full, setup, no_reads))
        for place, n, base, setup in places:
            full = (f"{base[0]}, scan ranges of {n}", base[1] + scans(500, n))
            rows.append(bench.compare(f"100 rows of {n:,}, in {place}", 500, base, full, setup, no_reads))
        bench.table("Scans", "µs", rows)
    if "open" in parts:
        openings(bench, log, boot)
    if "reads" in parts:
        if shutil.which("strace"):
            places, reads, size = blocks(bench.programs[0], with_table[greatest], greatest // 2, greatest)
            print(f"\nA get from a table of {greatest:,} rows reads {size:,.0f} bytes at {places:.3f} places, "
                  f"by {reads:.3f} calls")
        else:
            print("\nThe reads of gets aren't counted: there is no strace.")


def openings(bench, log, boot):
    """Openings over logs of some puts, and their memory. SQLite leaves no log when it ends; the bare log isn't read."""
    keel, *peers = bench.programs
    unfit = ["SQLite", "log"]
    rows = [bench.compare(f"`open`, a log of {n:,} puts", 1, None, ("open", OPEN), (put,),
                          [peer.name for peer in peers]) for n, put in log.items()]
    rows += [bench.compare(f"`open` and boot, a log of {n:,} puts", 1, None, boot, (put,), unfit)
             for n, put in log.items()]
    bench.table("Openings, the whole run", "ms", rows)

    taking = [program for program in bench.programs if program.name not in unfit]
    print("\nThe greatest memory of an opening with its boot, MiB, and Keel's log.\n")
    print("| a log of | bytes | " + " | ".join(program.name for program in taking) + " |")
    print("|---" + "|---:" * (1 + len(taking)) + "|")
    for n, setup in [(0, ())] + [(n, (put,)) for n, put in log.items()]:
        size = sum(file.stat().st_size for file in keel.prepare(setup).glob("*.log"))
        peaks = [program.peak(program.copy(program.prepare(setup)), BOOT) for program in taking]
        print(f"| {n:,} puts | {size:,} | " + " | ".join(figure(peak / 2**20) for peak in peaks) + " |")


if __name__ == "__main__":
    main()
