#!/usr/bin/env python3
"""Cuts the power under a program that keeps a store in a folder, and looks at what its next opening finds.

It records the system calls of runs of PROGRAM, and plays them back on a model of a file system that loses what wasn't
synced. Behind each call it takes images of what a power cut may leave there, lays each into a folder of its own and
opens the program over it. An image is right where these hold:
- It opens, and the opening finds the map after a prefix of the writes, before its boot and behind it.
- The prefix holds every synced write that was acknowledged by then, and all that a finished boot had found.
- A further synced write is taken, and another opening finds the same map with it.

A round is a few runs of the program over one folder, one behind the other. Each opens, boots and writes; each but the
last ends on its way, some of them inside the boot. Then either the program alone is killed, which loses nothing, or
the power is cut, and the next run goes on with an image.
The segments are small, so that the log is switched again and again.

The model of the file system:
- fsync and fdatasync of a file make its bytes durable; fsync of the folder makes changes of its names durable.
- A file keeps its durable bytes and any number of those behind them; the last of the kept may be garbage.
- Of the changes of names and the cuts that wait, mode `first` keeps the first so many, in the order in which they
  were made, and mode `any` each or not. A cut waits until its file is synced.
- In mode `any` the name under which a file was synced is durable too, as it is on the usual file systems of Linux.

It needs strace. It prints counts, and ends with status 1 where an image isn't right.
"""

import argparse
import collections
import os
import pathlib
import random
import re
import shutil
import subprocess
import sys
import tempfile
import time

TRACED = ("open,openat,creat,close,write,writev,pwrite64,ftruncate,truncate,rename,renameat,renameat2,link,linkat,"
          "unlink,unlinkat,fsync,fdatasync,sync_file_range")
CALL = re.compile(r"^(\w+)\((.*)\)\s+= (\d+)")
TEXT = re.compile(r'"((?:\\x[0-9a-f]{2})*)"')
KEYS = [f"k{number}" for number in range(12)]

# What goes on with a boot until it rests.
BOOT = "drain 1000"

# A system call that went well: its words as strace prints them, the texts among them, and what it answered.
Call = collections.namedtuple("Call", "name words texts answer")


def call_of(match):
    texts = [bytes.fromhex(text.replace("\\x", "")) for text in TEXT.findall(match[2])]
    return Call(match[1], TEXT.sub("", match[2]).split(","), texts, int(match[3]))


def said_by(call):
    """What a call writes to standard output."""
    return call.texts[0][:call.answer] if call.name == "write" and call.words[0] == "1" else b""


class File:
    """A file: the bytes that are durable, and those that reads see."""

    def __init__(self, content=b""):
        self.firm = content
        self.data = content
        self.synced = False


class Folder:
    """A folder on the model of a file system, and the files that a run has open there."""

    def __init__(self, path):
        self.path = path
        self.names = {}
        self.firm_names = {}
        self.waiting = []
        self.opened = {}

    def names_in(self, texts):
        """The names that paths have in the folder: the empty one for the folder itself, None for a path elsewhere."""
        paths = [os.fsdecode(text) for text in texts]
        return ["" if path == self.path else os.path.basename(path) if os.path.dirname(path) == self.path else None
                for path in paths]

    def play(self, call):
        """Plays a call, and says whether it changed something here."""
        kind = call.name
        if kind in ("open", "openat", "creat"):
            return self.open(call.answer, self.names_in(call.texts)[0], call.words)
        if kind in ("rename", "renameat", "renameat2", "unlink", "unlinkat") and None not in self.names_in(call.texts):
            self.change("move" if kind.startswith("rename") else "unlink", *self.names_in(call.texts))
            return True
        file = self.opened.get(call.words[0])
        if file is None:
            return False
        if kind == "close":
            del self.opened[call.words[0]]
            return False
        if kind == "write":
            file.data += call.texts[0][:call.answer]
        elif kind == "ftruncate":
            self.cut(file, int(call.words[1]))
        elif kind in ("fsync", "fdatasync"):
            self.sync(file)
        else:
            sys.exit(f"power_cut.py: the model has no call {kind}")
        return True

    def open(self, number, name, words):
        if name is None:
            return False
        is_new = name not in self.names and name != ""
        if is_new:
            self.change("link", name)
        elif any("O_TRUNC" in word for word in words):
            self.cut(self.names[name], 0)
        self.opened[str(number)] = self.names[name] if name else self
        return is_new

    def change(self, kind, name, target=None):
        """A change of names, which waits: a new file, another name for a file, or a file's end."""
        file = File() if kind == "link" else self.names[name]
        self.waiting.append((kind, name, target, file))
        apply(self.waiting[-1], self.names)

    def cut(self, file, length):
        file.data = file.data[:length]
        self.waiting.append(("cut", length, None, file))

    def sync(self, file):
        """Makes a file durable, or the names where it is the folder itself."""
        if file is self:
            for change in self.waiting:
                apply(change, self.firm_names)
            self.waiting = [change for change in self.waiting if change[0] == "cut"]
        else:
            file.firm = file.data
            file.synced = True
            self.waiting = [change for change in self.waiting if change[0] != "cut" or change[3] is not file]

    def image(self, mode, chance):
        """What a power cut may leave: names with their bytes."""
        if mode == "first":
            kept = self.waiting[:chance.randint(0, len(self.waiting))]
        else:
            kept = [change for change in self.waiting
                    if change[0] == "link" and change[3].synced or chance.random() < 0.5]
        names = dict(self.firm_names)
        for change in kept:
            apply(change, names)
        cuts = {file: min(length for kind, length, _, of in kept if kind == "cut" and of is file)
                for kind, _, _, file in kept if kind == "cut"}
        return {name: torn(file, file.firm[:cuts.get(file)], chance) for name, file in names.items()}

    def lose_power(self, mode, chance):
        """Lays an image into the folder, all of which is durable then."""
        image = self.image(mode, chance)
        for name in os.listdir(self.path):
            os.remove(os.path.join(self.path, name))
        lay(image, self.path)
        self.names = {name: File(content) for name, content in image.items()}
        self.firm_names = dict(self.names)
        self.waiting = []


def apply(change, names):
    """Makes a change of names. The old name goes only where it is still the file's."""
    kind, name, target, file = change
    if kind in ("move", "unlink") and names.get(name) is file:
        del names[name]
    if kind in ("link", "move"):
        names[target or name] = file


def torn(file, firm, chance):
    """The bytes that a power cut leaves of a file: none, some or all of those that aren't durable, or garbage."""
    rest = file.data[len(firm):]
    kept = rest[:chance.choice((0, len(rest), chance.randint(0, len(rest))))]
    spoilt = chance.choice((0, 0, chance.randint(0, len(kept))))
    garbage = bytes(spoilt) if chance.random() < 0.5 else chance.randbytes(spoilt)
    return firm + kept[:len(kept) - spoilt] + garbage


class Story:
    """The writes in their order: how many were acknowledged, and how many an opening must find and may find.

    `is_cut` says that the run before ended with a power cut, which leaves durable bytes alone.
    """

    def __init__(self):
        self.writes = []
        self.acknowledged = 0
        self.least = 0
        self.most = 0
        self.is_cut = False

    def prefix_of(self, found):
        """The longest prefix that makes this map, and None where none does that holds all it must hold."""
        return next((count for count in range(self.most, self.least - 1, -1) if self.map_after(count) == found), None)

    def map_after(self, count):
        last = {key: value for key, value, _ in self.writes[:count]}
        return {key: value for key, value in last.items() if value is not None}


def make_writes(count, chance, mark):
    """Writes, each with a value of its own: the key, the value or None for a delete, and whether it is synced."""
    writes = []
    for number in range(count):
        value = None if chance.random() < 0.15 else f"{mark}.{number}." + "v" * chance.choice((0, 0, 40, 700))
        writes.append((chance.choice(KEYS), value, chance.random() < 0.3))
    return writes


def command_of(write):
    key, value, synced = write
    return (f"del {key}" if value is None else f"put {key} {value}") + (" sync" if synced else "")


def maps_of(replies):
    """The maps that the replies to scans say."""
    maps, rows = [], {}
    for reply in replies:
        words = reply.split(" ")
        if words[0] == "row":
            rows[words[1]] = words[2]
        elif words[0] == "rows":
            maps.append(rows)
            rows = {}
    return maps


def record(program, folder, commands, replies):
    """Gives the program commands over a folder, and kills it behind so many replies that follow a scan: its calls."""
    with tempfile.TemporaryDirectory() as room:
        trace = pathlib.Path(room, "trace")
        words = ["strace", "-D", "-xx", "-s", "1048576", "-e", f"trace={TRACED}", "-o", trace, program, "dir", folder]
        with subprocess.Popen(words, stdin=subprocess.PIPE, stdout=subprocess.PIPE) as running:
            running.stdin.write("".join(command + "\n" for command in commands).encode())
            running.stdin.close()
            for line in iter(running.stdout.readline, b""):
                if line.startswith(b"rows "):
                    break
            for _ in range(replies):
                running.stdout.readline()
            running.kill()
            running.stdout.read()
        for _ in range(1000):
            lines = trace.read_text().splitlines()
            if lines and lines[-1].startswith("+++"):
                return [call_of(match) for match in map(CALL.match, lines) if match]
            time.sleep(0.01)
    sys.exit("power_cut.py: the trace doesn't end")


def ask(program, folder, *commands):
    """Runs commands over a folder, and gives the replies."""
    done = subprocess.run([program, "dir", folder], input="\n".join(commands) + "\n", capture_output=True, text=True,
                          timeout=120, check=False)
    return done.stdout.splitlines() if done.returncode == 0 else [f"wrong status {done.returncode}"]


def lay(image, place):
    """Writes an image into a folder."""
    os.makedirs(place, exist_ok=True)
    for name, content in image.items():
        pathlib.Path(place, name).write_bytes(content)


def judge(program, image, place, story):
    """Opens the program over an image, and says what is wrong, or that it is right."""
    lay(image, place)
    replies = ask(program, place, "open", "scan % %", BOOT, "scan % %", "put last word sync")
    if not replies[0].startswith("opened "):
        return " ".join(replies[0].split(" ")[:2])
    maps = maps_of(replies)
    if len(maps) != 2 or story.prefix_of(maps[0]) is None:
        return "wrong map"
    if "quiet" not in replies or not replies[-1].startswith("ok "):
        return "wrong answer to a further write"
    if maps[1] != maps[0]:
        return "wrong map behind the boot"
    again = ask(program, place, "open", "scan % %", BOOT, "scan % %")
    if not again[0].startswith("opened "):
        return "wrong opening behind the boot"
    return "right" if maps_of(again) == [maps[0] | {"last": "word"}] * 2 else "wrong map behind a further write"


def play_run(calls, head, program, folder, story, options, chance, results):
    """Plays a run, of which `head` replies come before those to its writes, and judges the images in it."""
    mark, said = story.most, b""
    folder.opened = {}
    for call in calls:
        changed = folder.play(call)
        said += said_by(call)
        lines = said.decode().splitlines()
        answers = lines[head:]
        if not all(answer.startswith("ok ") for answer in answers):
            sys.exit(f"power_cut.py: a write wasn't taken: {answers[-1]}")
        story.acknowledged = mark + len(answers)
        story.most = min(story.acknowledged + 1, len(story.writes))
        synced = [count for count in range(mark, story.acknowledged) if story.writes[count][2]]
        booted = mark if "quiet" in lines[:head] else 0
        story.least = max([story.least, booted] + [count + 1 for count in synced])
        for mode in options.modes * options.images if changed else ():
            image = folder.image(mode, chance)
            with tempfile.TemporaryDirectory() as place:
                verdict = judge(program, image, place, story)
            results[verdict] += 1
            if verdict != "right" and options.keep:
                lay(image, os.path.join(options.keep, str(sum(results.values()))))


def run_once(program, folder, story, options, chance, results, last):
    """One run of the program, which goes on where the one before it ended, and the images in it."""
    is_cut_off = not last and chance.random() < 0.3
    sent = [] if is_cut_off else make_writes(options.writes, chance, len(story.writes))
    boot = f"drain {chance.randint(1, 16)}" if is_cut_off else BOOT
    small = [f"option write_buffer {60 * options.writes}", "option max_immutables 16"]
    replies = len(sent) if last else chance.randint(0, len(sent))
    calls = record(program, folder.path, small + ["open", "scan % %", boot] + [command_of(write) for write in sent],
                   1 + replies)
    said = b"".join(said_by(call) for call in calls).decode().splitlines()
    rows = next((place for place, reply in enumerate(said) if reply.startswith("rows ")), None)
    found = None if rows is None else story.prefix_of(maps_of(said)[0])
    if found is None or not story.is_cut and found < story.acknowledged:
        results["wrong opening of a run"] += 1
        return False
    if story.is_cut:
        story.least = found
    story.writes = story.writes[:found] + sent
    story.most = found
    play_run(calls, rows + 2, program, folder, story, options, chance, results)
    story.is_cut = chance.random() < 0.5
    if story.is_cut:
        folder.lose_power(chance.choice(options.modes), chance)
    return True


def main():
    parser = argparse.ArgumentParser(description=__doc__, formatter_class=argparse.RawDescriptionHelpFormatter)
    parser.add_argument("program", metavar="PROGRAM", help="the program, which is run as PROGRAM dir FOLDER")
    parser.add_argument("--rounds", type=int, default=4, help="how many rounds, each in a new folder (%(default)s)")
    parser.add_argument("--runs", type=int, default=3, help="how many runs of the program a round has (%(default)s)")
    parser.add_argument("--writes", type=int, default=30, help="how many writes a run is given (%(default)s)")
    parser.add_argument("--images", type=int, default=2, help="images behind each call and mode (%(default)s)")
    parser.add_argument("--mode", choices=("first", "any", "both"), default="both", help="which waiting changes last")
    parser.add_argument("--seed", type=int, default=1, help="another seed makes other writes and images (%(default)s)")
    parser.add_argument("--keep", metavar="FOLDER", help="copies images that aren't right into this folder")
    options = parser.parse_args()
    options.modes = ("first", "any") if options.mode == "both" else (options.mode,)
    if shutil.which("strace") is None:
        sys.exit("power_cut.py: strace isn't there; `apt-get install strace` brings it")
    chance, results = random.Random(options.seed), collections.Counter()
    for _ in range(options.rounds):
        with tempfile.TemporaryDirectory() as path:
            folder, story = Folder(os.path.realpath(path)), Story()
            for run in range(options.runs):
                last = run + 1 == options.runs
                if not run_once(os.path.realpath(options.program), folder, story, options, chance, results, last):
                    break
    right = results.pop("right", 0)
    wrong = sum(count for reason, count in results.items() if reason.startswith("wrong"))
    refused = sum(results.values()) - wrong
    print(f"images {right + wrong + refused}, right {right}, wrong {wrong}, refused {refused}")
    for reason, count in sorted(results.items()):
        print(f"{reason}: {count}")
    sys.exit(1 if results else 0)


if __name__ == "__main__":
    main()
