#!/usr/bin/env python3
"""Tests of the client: `clients/test_keel.py PROGRAM`.

It plays the client against a dict with random bytes, kills the child in between, and opens the folder again.
"""

import os
import random
import subprocess
import sys
import tempfile
import unittest

from keel import (BadReply, BadSize, Booting, Ended, Failed, Full, Keel, NotOpen, QueueFull, ReadFault, Refused,
                  Stopped, TooLong, decode, encode)

PROGRAM = "keel"
SEED = 20481
ROUNDS = 12
STEPS = 60


class TextTest(unittest.TestCase):
    def test_spelling(self):
        self.assertEqual(encode(b""), "%")
        self.assertEqual(encode(b"two words"), "two%20words")
        self.assertEqual(encode(b"\x00%\xff"), "%00%25%FF")

    def test_every_byte(self):
        every = bytes(range(256))
        self.assertEqual(decode(encode(every)), every)

    def test_no_text(self):
        for text in ("%4", "%zz", "a%", "a b"):
            with self.assertRaises(ValueError):
                decode(text)


class FolderTest(unittest.TestCase):
    """Tests over a folder of their own."""

    def setUp(self):
        room = tempfile.TemporaryDirectory(prefix="keel-client-")
        self.addCleanup(room.cleanup)
        self.path = room.name

    def open(self, options=None):
        return Keel(self.path, PROGRAM, options)

    def file(self, name):
        return os.path.join(self.path, name)

    def script(self, name, lines):
        """A program of these lines of sh."""
        with open(self.file(name), "w", encoding="utf-8") as file:
            file.write("#!/bin/sh\n" + lines)
        os.chmod(self.file(name), 0o700)
        return self.file(name)

    def program_that_answers(self, reply, opening=None, boot="quiet"):
        """A program that answers each line with this one, but `open` and the boot as is said beside it."""
        opening, boot = (reply, reply) if opening is None else (opening, boot)
        return self.script("answers", f"""while read -r line; do
    case $line in open) echo '{opening}';; drain*) echo '{boot}';; *) echo '{reply}';; esac
done
""")


class CallTest(FolderTest):
    def test_reads_and_writes(self):
        with self.open() as store:
            self.assertEqual(store.sequence, 0)
            self.assertEqual(store.put(b"a", b""), 1)
            self.assertEqual(store.put(b"sync", b"sync", sync=False), 2)
            self.assertEqual(store.get(b"a"), b"")
            self.assertIsNone(store.get(b"b"))
            self.assertEqual(store.delete(b"a"), 3)
            self.assertEqual(store.scan(), [(b"sync", b"sync")])
            self.assertEqual(store.scan(b"t"), [])

    def test_several_at_once(self):
        with self.open() as store:
            last = store.write([(b"a", b"1"), (b"b", b"2"), (b"a", None)])
            self.assertEqual(last, 3)
            self.assertEqual(store.scan(), [(b"b", b"2")])
            self.assertIsNone(store.write([]))

    def test_refusal_among_several(self):
        with self.open() as store:
            with self.assertRaises(BadSize):
                store.write([(b"a", b"1"), (b"", b"2"), (b"c", b"3")])
            self.assertEqual(store.scan(), [(b"a", b"1")])

    def test_too_many_at_once(self):
        with self.open() as store:
            with self.assertRaises(QueueFull):
                store.write([(b"a", b"1")] * 65)
            self.assertEqual(store.write([(b"a", b"1")] * 64), 64)

    def test_sizes(self):
        with self.open() as store:
            with self.assertRaises(BadSize) as told:
                store.put(b"k" * 1025, b"v")
            self.assertEqual(told.exception.words, "bad-size key 1025")
            with self.assertRaises(TooLong):
                store.put(b"k", bytes(3000))
            self.assertEqual(store.scan(), [])

    def test_closed(self):
        store = self.open()
        store.close()
        store.close()
        with self.assertRaises(NotOpen):
            store.get(b"a")


class OpeningTest(FolderTest):
    def test_second_program(self):
        with self.open() as store:
            store.put(b"a", b"1")
            with self.assertRaises(Refused) as told:
                self.open()
            self.assertEqual(told.exception.words, "refused device plain")
        with self.open() as store:
            self.assertEqual(store.get(b"a"), b"1")

    def test_no_path(self):
        with self.assertRaises(Ended) as told:
            Keel("", PROGRAM)
        self.assertEqual(told.exception.status, 2)

    def test_child_that_ended(self):
        store = self.open()
        os.kill(store.pid, 9)
        with self.assertRaises(Ended) as told:
            store.put(b"a", b"1")
        self.assertEqual(told.exception.status, -9)

    def test_reply_that_does_not_fit(self):
        for reply in ("what", "opened", "opened -1", "opened 01", "", "opened 0"):
            with self.assertRaises(BadReply):
                Keel(self.path, self.program_that_answers(reply))

    def test_options(self):
        with self.assertRaises(Refused) as told:
            self.open({"write_buffer": 0})
        self.assertEqual(told.exception.words, "bad-option write_buffer 1 67108864")
        with self.assertRaises(Ended) as told:
            self.open({"buffers": 1})
        self.assertEqual(told.exception.status, 3)

    def test_full_segments_are_flushed(self):
        with self.open({"write_buffer": 18, "max_immutables": 1}) as store:
            for count in range(1, 6):
                self.assertEqual(store.put(b"k%d" % count, b"v"), count)
            self.assertEqual(store.delete(b"k1"), 6)
            self.assertEqual(store.write([(b"a", b"1"), (b"b", b"2")]), 8)
            store.flush()
            self.assertEqual([key for key, _ in store.scan()], [b"a", b"b", b"k2", b"k3", b"k4", b"k5"])
        with self.open() as store:
            self.assertEqual(store.sequence, 8)
            self.assertEqual(store.get(b"k5"), b"v")
            self.assertIsNone(store.get(b"k1"))

    def test_replies_that_refuse(self):
        for reply, error in (("booting", Booting), ("full 18 1", Full), ("read-fault plain", ReadFault),
                             ("bad-check 1 2", ReadFault), ("bad-shape 3", ReadFault), ("absent-table 4", ReadFault)):
            with Keel(self.path, self.program_that_answers(reply, "opened 0")) as store:
                for ask in (lambda: store.put(b"a", b"1"), lambda: store.get(b"a"), store.scan):
                    with self.assertRaises(error) as told:
                        ask()
                    self.assertEqual(told.exception.words, reply)
                    self.assertTrue(str(told.exception).startswith(f"{reply}: "))


class DamageTest(FolderTest):
    """A store of one table, whose files are changed by another hand."""

    TABLE = "000003.sst"
    MANIFEST = "MANIFEST-000005"
    LOG = "000004.log"

    def setUp(self):
        super().setUp()
        with self.open() as store:
            store.put(b"a", b"1")
        with self.open() as store:
            store.put(b"b", b"2")

    def read(self, name):
        with open(self.file(name), "rb") as file:
            return file.read()

    def lay(self, name, content):
        with open(self.file(name), "wb") as file:
            file.write(content)

    def spoil(self, name, at):
        content = bytearray(self.read(name))
        content[at] ^= 1
        self.lay(name, content)

    def check_refused(self, words):
        with self.assertRaises(Refused) as told:
            self.open()
        self.assertEqual(told.exception.words, "refused " + words)
        self.assertIn("a copy", str(told.exception))

    def test_no_current(self):
        os.remove(self.file("CURRENT"))
        self.check_refused("no-current 000001.log")

    def test_bad_current(self):
        self.lay("CURRENT", self.MANIFEST.encode())
        self.check_refused("bad-current " + self.MANIFEST)

    def test_damaged_manifest(self):
        self.spoil(self.MANIFEST, 20)
        self.check_refused("damaged-manifest 0")

    def test_absent_manifest(self):
        os.remove(self.file(self.MANIFEST))
        self.check_refused("damaged-manifest 0")

    def test_missing_table(self):
        os.remove(self.file(self.TABLE))
        self.check_refused("missing-table 3")

    def test_bad_table(self):
        self.spoil(self.TABLE, -1)
        self.check_refused("bad-table 3")

    def test_bad_log(self):
        self.lay(self.LOG, self.read(self.MANIFEST))
        self.check_refused("bad-log 4 0")

    def test_log_gap(self):
        self.lay(self.LOG, self.read("000001.log"))
        self.check_refused("log-gap 4 2 1")

    def test_damage_of_an_open_store(self):
        with self.open() as store:
            self.assertEqual(store.get(b"a"), b"1")
            self.spoil(self.TABLE, 0)
            for ask in (lambda: store.get(b"a"), store.scan):
                with self.assertRaises(ReadFault) as told:
                    ask()
                self.assertTrue(told.exception.words.startswith("bad-check "))
            self.assertEqual(store.get(b"b"), b"2")
            store.put(b"a", b"3")


class FailureTest(FolderTest):
    """The host lets no file grow past a small size, so that an append of a long record fails."""

    LONG = b"x" * 2000

    def open_store(self, program):
        os.makedirs(self.file("store"), exist_ok=True)
        return Keel(self.file("store"), program)

    def open_small(self):
        return self.open_store(self.script("small", f"trap '' XFSZ\nulimit -f 1\nexec '{PROGRAM}' \"$@\"\n"))

    def test_boot_fails(self):
        with self.open_store(PROGRAM) as store:
            store.put(b"a", self.LONG)
        with self.open_small() as store:
            self.assertEqual(store.sequence, 1)
            with self.assertRaises(Booting) as told:
                store.put(b"b", b"2")
            self.assertIn("has room", str(told.exception))
            with self.assertRaises(Booting):
                store.write([(b"b", b"2")])
            self.assertEqual(store.get(b"a"), self.LONG)
        with self.open_store(PROGRAM) as store:
            self.assertEqual(store.put(b"b", b"2"), 2)
            self.assertEqual(store.get(b"a"), self.LONG)

    def test_writes_stop(self):
        with self.open_small() as store:
            store.put(b"a", b"1")
            with self.assertRaises(Failed) as told:
                store.put(b"b", self.LONG)
            self.assertEqual(told.exception.words, "failed wal plain")
            with self.assertRaises(Stopped):
                store.put(b"c", b"3")
            with self.assertRaises(Stopped):
                store.write([(b"c", b"3")])
            self.assertEqual(store.scan(), [(b"a", b"1")])
        with self.open_small() as store:
            self.assertEqual(store.get(b"a"), b"1")
            self.assertEqual(store.put(b"c", b"3"), 2)

    def test_several_fail(self):
        with self.open_small() as store:
            with self.assertRaises(Failed):
                store.write([(b"a", b"1"), (b"b", self.LONG)])
            self.assertEqual(store.scan(), [])


class KillTest(FolderTest):
    """A dict says what the store must have: all that was answered, and the op under way or not."""

    def setUp(self):
        super().setUp()
        self.random = random.Random(SEED)
        self.model = {}

    def key(self):
        if self.random.random() < 0.7:
            return b"key-%d" % self.random.randrange(20)
        return self.random.randbytes(self.random.randrange(1, 40))

    def value(self):
        return self.random.randbytes(self.random.randrange(0, 200))

    def apply(self, key, value):
        if value is None:
            self.model.pop(key, None)
        else:
            self.model[key] = value

    def step(self, store):
        sync = self.random.random() < 0.3
        kind = self.random.randrange(5)
        if kind < 2:
            key, value = self.key(), self.value()
            store.put(key, value, sync)
            self.apply(key, value)
        elif kind == 2:
            key = self.key()
            store.delete(key, sync)
            self.apply(key, None)
        elif kind == 3:
            ops = [(self.key(), self.random.choice([None, self.value()])) for _ in range(self.random.randrange(1, 20))]
            store.write(ops, sync)
            for key, value in ops:
                self.apply(key, value)
        else:
            self.compare_reads(store)

    def compare_reads(self, store):
        key = self.key()
        self.assertEqual(store.get(key), self.model.get(key))
        first, end = sorted([self.key(), self.key()])
        wanted = sorted((key, value) for key, value in self.model.items() if first <= key < end)
        self.assertEqual(store.scan(first, end), wanted)

    def kill_inside_a_put(self, store):
        """Sends a put, and kills the child without waiting for the answer."""
        key, value = self.key(), self.value()
        store._send(f"put {encode(key)} {encode(value)} sync")
        os.kill(store.pid, 9)
        with self.assertRaises(Ended):
            while True:
                store._reply()
        return key, value

    def kill_inside_a_boot(self):
        """Opens the folder, and kills the program behind some calls of the boot."""
        with subprocess.Popen([PROGRAM, "dir", self.path], stdin=subprocess.PIPE, stdout=subprocess.PIPE) as child:
            child.stdin.write(b"open\ndrain %d\n" % self.random.randrange(1, 15))
            child.stdin.flush()
            self.assertTrue(child.stdout.readline().startswith(b"opened "))
            child.stdout.readline()
            child.kill()

    def test_kills(self):
        under_way = None
        for _ in range(ROUNDS):
            self.kill_inside_a_boot()
            with self.open() as store:
                found = dict(store.scan())
                if under_way is not None and found != self.model:
                    self.model[under_way[0]] = under_way[1]
                self.assertEqual(found, self.model)
                for _ in range(STEPS):
                    self.step(store)
                self.assertEqual(store.scan(), sorted(self.model.items()))
                under_way = self.kill_inside_a_put(store)


if __name__ == "__main__":
    if len(sys.argv) != 2:
        sys.exit("usage: clients/test_keel.py PROGRAM")
    PROGRAM = os.path.abspath(sys.argv.pop())
    unittest.main()
