"""A client of Keel for Python, by the standard library alone.

It starts `keel dir PATH` as a child and speaks its lines: one command a line, each answered at once.

    with Keel("/tmp/store") as store:
        store.put(b"apple", b"3")
        store.get(b"apple")

What is durable when:

- A put or a delete with `sync` is durable once the call came back, with all that was written before it since the
  opening.
- One without `sync` is shown by reads once the call came back.
  A killed program doesn't lose it, and a power loss may.
- What an earlier run left without `sync` is durable once an opening has booted, which a `Keel` does as it is made.
- A write that raised `Failed` or `Ended` may be found by a later opening or not.

One program at a time has a folder, and one thread at a time may use a `Keel`.
"""

import subprocess

LINE_LIMIT = 8192
"""The bytes that a line may have, without its newline."""

INPUT_LIMIT = 67108864
"""The bytes that a child takes in its life, newlines included."""

QUEUE_LIMIT = 64
"""How many writes may wait at once."""

BOOT = "drain 1000"
"""The line that goes on with a boot, until it is answered `quiet`."""

COPY = "files of the store were changed or are gone; lay the folder anew from a copy"
ADVICE = {
    "refused device": "another program has the folder, or it can't be read; end that program, or look at the folder",
    "refused no-current": "CURRENT is gone, or an older Keel wrote the folder; lay the folder anew from a copy",
    "refused bad-current": COPY,
    "refused damaged-manifest": COPY,
    "refused missing-table": COPY,
    "refused bad-table": COPY,
    "refused bad-log": COPY,
    "refused log-gap": COPY,
    "booting": "the boot behind the opening failed; look whether the host has room, and open the store again",
    "full": "a flush made no room; look whether the host has room, and open the store again",
    "read-fault": "a table can't be read; look at the folder, and open the store again",
    "bad-check": COPY,
    "bad-shape": COPY,
    "absent-table": COPY,
    "stopped": "close the store, look whether the host has room, and open it again",
    "failed": "close the store, look whether the host has room, and open it again",
}
"""What to do about some replies, by the words that they begin with."""


class KeelError(Exception):
    """What every error of this module is. `words` has the words of the reply, or of the client.

    Its text has them too, and what to do about it where that can be told.
    """

    def __init__(self, words):
        advice = next((advice for begin, advice in ADVICE.items() if f"{words} ".startswith(f"{begin} ")), None)
        super().__init__(words if advice is None else f"{words}: {advice}")
        self.words = words


class Refused(KeelError):
    """The store refused what was asked, and nothing of it was done.

    An opening has `refused ..`: another program has the folder, or its files can't be read as a store.
    An option out of its range has `bad-option ..`.
    """


class BadSize(Refused):
    """`bad-size`: a key has 1 to 1024 bytes, a value at most 65536."""


class QueueFull(Refused):
    """`queue-full`: too many writes wait already."""


class Booting(Refused):
    """`booting`: the boot behind the opening failed, so nothing is written. Reads go on."""


class Full(Refused):
    """`full`: the segments in memory are full, and a flush made no room. Nothing was written, and reads go on."""


class NotOpen(Refused):
    """`not-open`: no store is open."""


class Spent(Refused):
    """`spent`: no number is left for another write, group or log.

    A group without a number stays queued, and a later call would write it.
    """


class TooLong(Refused):
    """The line would pass `LINE_LIMIT`. It wasn't sent; each byte that isn't printable takes three."""


class InputFull(Refused):
    """The child's input would pass `INPUT_LIMIT`. The line wasn't sent; another `Keel` on the path goes on."""


class Failed(KeelError):
    """`failed`: a call of the device failed. A later opening may find the write or not, and writes stop."""


class Stopped(KeelError):
    """`stopped` or `turned`: a failure stands, and nothing is written until the store is opened again."""


class Waiting(KeelError):
    """`waiting`: the write was admitted and waits, since the segments became full or no number is left for it."""


class ReadFault(KeelError):
    """`read-fault`, `bad-check`, `bad-shape` or `absent-table`: a read needs a table that can't be read."""


class Ended(KeelError):
    """The child ended. `status` is its status, below 0 where a signal ended it.

    A write that was under way may be found by a later opening or not.
    """

    def __init__(self, status, message):
        super().__init__(f"ended with {status}" + (f": {message}" if message else ""))
        self.status = status


class BadReply(KeelError):
    """A reply doesn't fit its command. The child was ended, since its later replies may belong to others."""


REFUSALS = {
    "refused": Refused,
    "bad-option": Refused,
    "bad-size": BadSize,
    "booting": Booting,
    "full": Full,
    "queue-full": QueueFull,
    "not-open": NotOpen,
    "spent": Spent,
    "failed": Failed,
    "stopped": Stopped,
    "turned": Stopped,
    "waiting": Waiting,
    "read-fault": ReadFault,
    "bad-check": ReadFault,
    "bad-shape": ReadFault,
    "absent-table": ReadFault,
}


def encode(data):
    """The text of some bytes: a printable byte but `%` as itself, any other as `%` and two digits, none as `%`."""
    if not data:
        return "%"
    return "".join(chr(byte) if 0x21 <= byte <= 0x7E and byte != 0x25 else f"%{byte:02X}" for byte in data)


def decode(text):
    """The bytes of a text. Raises ValueError where it is none."""
    if text == "%":
        return b""
    data = bytearray()
    at = 0
    while at < len(text):
        if text[at] != "%":
            if not "\x21" <= text[at] <= "\x7E":
                raise ValueError("not a byte of a text")
            data.append(ord(text[at]))
            at += 1
            continue
        digits = text[at + 1:at + 3]
        if len(digits) != 2 or any(digit not in "0123456789abcdefABCDEF" for digit in digits):
            raise ValueError("not two hexadecimal digits")
        data.append(int(digits, 16))
        at += 3
    return bytes(data)


def number(text):
    """The number that a word says. Raises ValueError where it is none."""
    if not (text.isascii() and text.isdigit()) or text != str(int(text)):
        raise ValueError("not a number")
    return int(text)


class Keel:
    """A store in the folder `path`, which must be there. `program` is the program of Keel.

    `options` has numbers by their names, as `{"write_buffer": 1048576}`; they are this opening's alone.
    It is opened at once, and booted. Where the boot fails reads go on, and writes raise `Booting`.
    Raises `Refused` where the store can't be opened, `Ended` where the program ends at once, and OSError where there
    is no program.
    `sequence` has the number of the last op that the opening found.
    """

    def __init__(self, path, program="keel", options=None):
        self._sent = 0
        self._child = subprocess.Popen(
            [program, "dir", path], stdin=subprocess.PIPE, stdout=subprocess.PIPE, stderr=subprocess.PIPE
        )
        try:
            for name, value in (options or {}).items():
                self._set_option(name, value)
            self.sequence = self._number_of("open", "opened")
            self._boot()
        except BaseException:
            self._end(kill=True)
            raise

    def __enter__(self):
        return self

    def __exit__(self, kind, error, trace):
        if kind is None:
            self.close()
        else:
            self._end(kill=False)

    @property
    def pid(self):
        """The number of the child's process."""
        return self._child.pid

    def close(self):
        """Ends the child. Makes nothing durable. Raises `Ended` where its status isn't 0."""
        if self._child.stdin.closed:
            return
        message = self._end(kill=False)
        if self._child.returncode != 0:
            raise Ended(self._child.returncode, message)

    def put(self, key, value, sync=True):
        """Writes a value, and gives the number of the op.

        With `sync` it is durable once this came back, with all written before it since the opening.
        Without, reads show it, and a power loss may lose it.
        Where the segments in memory are full they are flushed first.
        """
        line = self._put_line(key, value, sync)
        return self._with_room(lambda: self._number_of(line, "ok"))

    def delete(self, key, sync=True):
        """Deletes a key, whether it is there or not, and gives the number of the op. It is durable as a put is."""
        line = self._delete_line(key, sync)
        return self._with_room(lambda: self._number_of(line, "ok"))

    def get(self, key):
        """The value of a key, or None. It may be one that isn't durable."""
        line = f"get {encode(key)}"
        words = self._ask(line)
        if words == ["absent"]:
            return None
        if words[0] != "value" or len(words) != 2:
            self._give_up(line, words)
        return self._read(line, words, decode, words[1])

    def scan(self, first=b"", end=b""):
        """The keys from `first` on and before `end`, in order, each with its value; empty bytes are no bound."""
        line = f"scan {encode(first)} {encode(end)}"
        words = self._ask(line)
        rows = []
        while words[0] == "row" and len(words) == 3:
            rows.append((self._read(line, words, decode, words[1]), self._read(line, words, decode, words[2])))
            words = self._reply()
        if words[0] != "rows" or len(words) != 2 or self._read(line, words, number, words[1]) != len(rows):
            self._give_up(line, words)
        return rows

    def write(self, ops, sync=True):
        """Writes several puts `(key, value)` and deletes `(key, None)` in their order, at most `QUEUE_LIMIT`.

        They are queued, and then written by one append and one sync. Gives the number of the last op.
        With `sync` all are durable once this came back.
        It isn't one transaction: a crash may keep the first few of them, and never a later one without those before.
        Where one is refused, those before it are written and durable as told here, and then the refusal is raised.
        """
        ops = list(ops)
        if len(ops) > QUEUE_LIMIT:
            raise QueueFull(f"at most {QUEUE_LIMIT} writes at once")
        queued = 0
        refusal = None
        try:
            for key, value in ops:
                line = self._delete_line(key, sync) if value is None else self._put_line(key, value, sync)
                self._with_room(lambda: self._number_of(f"queue 0 {line}", "queued"))
                queued += 1
        except (Refused, Stopped) as error:
            refusal = error
        last = self._write_out(queued)
        if refusal is not None:
            raise refusal
        return last

    def flush(self):
        """Flushes the full segments into tables, which makes room for writes. A write does so where it needs room.

        Raises `Failed` where a call of the device failed; nothing is lost by that, and writes may stop.
        """
        words = self._ask("flush")
        while words[0] in ("moved", "done"):
            words = self._ask("flush")
        if words != ["idle"]:
            self._give_up("flush", words)

    def _with_room(self, ask):
        """What `ask` gives. Where the store is full it is flushed, and then asked once more."""
        try:
            return ask()
        except Full as full:
            try:
                self.flush()
            except (Failed, Refused):
                raise full
        return ask()

    def _set_option(self, name, value):
        line = f"option {name} {value}"
        words = self._ask(line)
        if words != line.split(" "):
            self._give_up(line, words)

    def _boot(self):
        """Goes on with the boot until it rests."""
        words = self._ask(BOOT)
        while words == ["more"]:
            words = self._ask(BOOT)
        if words != ["quiet"]:
            self._give_up(BOOT, words)

    def _write_out(self, queued):
        """Makes steps of writing until so many queued writes are answered; gives the number of the last op."""
        last = None
        while queued > 0:
            words = self._with_room(lambda: self._ask("write"))
            if words[0] == "moved" and len(words) == 3:
                continue
            if words[0] != "done" or len(words) != 4:
                self._give_up("write", words)
            last = self._read("write", words, number, words[2])
            queued -= self._read("write", words, number, words[3])
        return last

    def _put_line(self, key, value, sync):
        return f"put {encode(key)} {encode(value)}" + (" sync" if sync else "")

    def _delete_line(self, key, sync):
        return f"del {encode(key)}" + (" sync" if sync else "")

    def _number_of(self, line, name):
        """Asks, and gives the number of the one reply that fits."""
        words = self._ask(line)
        if words[0] != name or len(words) != 2:
            self._give_up(line, words)
        return self._read(line, words, number, words[1])

    def _ask(self, line):
        self._send(line)
        return self._reply()

    def _send(self, line):
        data = line.encode("ascii") + b"\n"
        if len(data) - 1 > LINE_LIMIT:
            raise TooLong(f"a line has at most {LINE_LIMIT} bytes")
        if self._child.stdin.closed:
            raise NotOpen("not-open")
        if self._sent + len(data) > INPUT_LIMIT:
            raise InputFull(f"a child takes at most {INPUT_LIMIT} bytes")
        try:
            self._child.stdin.write(data)
            self._child.stdin.flush()
        except OSError:
            self._child_ended()
        self._sent += len(data)

    def _reply(self):
        """The words of the next line, or the exception that it says."""
        line = self._child.stdout.readline()
        if not line.endswith(b"\n"):
            self._child_ended()
        try:
            text = line[:-1].decode("ascii")
        except UnicodeDecodeError:
            text = ascii(line[:-1])
        words = text.split(" ")
        if words[0] in REFUSALS:
            raise REFUSALS[words[0]](text)
        return words

    def _read(self, line, words, reader, word):
        try:
            return reader(word)
        except ValueError:
            self._give_up(line, words)

    def _give_up(self, line, words):
        self._end(kill=True)
        raise BadReply(f"to `{line.split(' ')[0]}`: {' '.join(words)}")

    def _child_ended(self):
        message = self._end(kill=False)
        raise Ended(self._child.returncode, message)

    def _end(self, kill):
        """Closes the child's input and waits until it ended. Gives its message."""
        if self._child.stdin.closed:
            return ""
        if kill:
            self._child.kill()
        try:
            self._child.stdin.close()
        except OSError:
            pass
        message = self._child.stderr.read().decode("ascii", "replace").strip()
        self._child.stdout.close()
        self._child.stderr.close()
        self._child.wait()
        return message
