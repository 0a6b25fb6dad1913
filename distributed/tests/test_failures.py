"""What fails: files, queries, the program, and workers."""
import argparse
import gzip
import json
import os
import signal
import socket
import subprocess
import threading
import unittest
from typing import Any
from unittest import mock

import fsspec
from distributed import Client
from fsspec.implementations.local import LocalFileSystem

import testing
from testing import SCRIPT, file, script, spq, spq_dask

TEXT = b"".join(b"<a:s%d> <a:p> _:b%d .\n" % (k % 50, k) for k in range(400))


def outcome(*words: Any, **options: Any) -> tuple:
    """Returns what a run of spq-dask ends with, or the exception that it raises, for a thread that must not lose it."""
    try:
        return spq_dask(*words, **options)
    except BaseException as error:
        return (repr(error),)


class Here(LocalFileSystem):
    """A file system that the workers do not have."""

    @classmethod
    def _strip_protocol(cls, path: str) -> str:
        return super()._strip_protocol(path.removeprefix("here://"))


class Files(unittest.TestCase):
    def test_missing(self):
        status, said, told = spq_dask(["check"], os.path.join(testing.FOLDER, "missing.nq"))
        self.assertEqual((status, said), (5, b"error: input\n"))
        self.assertIn("missing.nq", told)

    def changed(self, change) -> None:
        """Changes a file after it is opened, and before its blocks are read."""
        path, opened = file(TEXT), SCRIPT.opened

        def opened_and_changed(url):
            yield from opened(url)
            change(path)

        with mock.patch.object(SCRIPT, "opened", opened_and_changed):
            status, said, told = spq_dask(["check", "--blocksize", "1000"], path)
        self.assertEqual((status, said), (5, b"error: input\n"))
        self.assertIn(path, told)
        self.assertIn(socket.gethostname(), told)

    def test_disappears(self):
        self.changed(os.remove)

    def test_is_cut_short(self):
        self.changed(lambda path: os.truncate(path, TEXT.index(b"\n", 3000) + 1))

    def test_is_changed(self):
        """The size is the same, but not the time of the last change."""
        self.changed(lambda path: os.utime(path, (1, 1)))

    def test_is_of_no_protocol(self):
        for url in ["nowhere://x/y.nq", "http://127.0.0.1:9/x.nq"]:
            self.assertEqual(spq_dask(["check"], url)[:2], (5, b"error: input\n"))

    def test_is_of_a_protocol_that_workers_lack(self):
        fsspec.register_implementation("here", Here)
        status, said, told = spq_dask(["check"], "here://" + file(TEXT))
        self.assertEqual((status, said), (5, b"error: input\n"))
        self.assertRegex(told, f"^spq-dask: {socket.gethostname()}: /.*document.nq: ModuleNotFoundError: .*\n$")

    def test_cannot_be_unpacked(self):
        status, said, told = spq_dask(["check"], file(b"x", "x.nq.zst"))
        self.assertEqual((status, said), (5, b"error: input\n"))
        self.assertRegex(told, r"x.nq.zst: .*package")

    def test_names_the_host_and_the_file(self):
        status, said, told = spq_dask(["terms"], file(b"no gzip", "x.gz"))
        self.assertEqual((status, said, told.count("\n")), (5, b"error: input\n", 1))
        self.assertIn("x.gz", told)
        self.assertIn(socket.gethostname(), told)

    def test_damaged_gzip(self):
        packed = bytearray(gzip.compress(TEXT))
        packed[40] ^= 255
        self.assertEqual(spq_dask(["check"], file(bytes(packed), "x.gz"))[:2], (5, b"error: input\n"))

    def test_names_the_file_and_its_line(self):
        said = spq_dask(["check"], file(TEXT), file(b"# c\n\nx\n", "second.nq"))
        self.assertEqual(said[:2], (1, b"error: line 403\n"))
        self.assertRegex(said[2], r"second.nq: line 3$")

    def test_broken_gzip(self):
        self.assertEqual(spq_dask(["check"], file(b"no gzip", "x.gz"))[:2], (5, b"error: input\n"))


class Queries(unittest.TestCase):
    def test_are_rejected_first(self):
        path = file(b"x\n")
        for text in ["SELECT", "SELECT * { ?a e:b ?c }", "SELECT * { ?a <b> ?c }"]:
            asked = ["select", "--query", text]
            wanted = spq(asked, b"")
            self.assertEqual(wanted[0], 2)
            status, said, told = spq_dask([*asked, "--split", "lines"], path)
            self.assertEqual((status, said), wanted)
            self.assertRegex(told, r"^spq-dask: spq: query, line 1, column \d+: .*\n")

    def test_may_not_be_split(self):
        path = file(TEXT)
        for options, text in [
            (["--split", "graph"], "SELECT * { GRAPH ?g { ?a ?b ?c } GRAPH ?h { ?a ?b ?c } }"),
            (["--split", "subject"], "SELECT * { ?a ?b ?c . ?c ?d ?e }"),
            (["--split", "lines"], "SELECT * { ?a ?b ?c . ?c ?d ?e }"),
        ]:
            status, said, told = spq_dask(["select", "--query", text, *options], path)
            self.assertEqual((status, said), (3, b"error: command line\n"))
            self.assertRegex(told, f"^spq-dask: spq-part: in a query for {options[1]} |^spq-dask: spq-part: a query for lines ")
            self.assertEqual(told.count("\n"), 1)


class Programs(unittest.TestCase):
    def test_is_missing(self):
        status, said, told = spq_dask(["check"], file(TEXT), program="/nowhere/spq")
        self.assertEqual((status, said), (4, b"error: worker\n"))
        self.assertIn("/nowhere/spq", told)

    def test_has_another_version(self):
        """Two workers with different versions, and a version that changes while a command runs."""
        each = script('[ "$1" = --version ] && exec echo spq-part $$; exec "$PART" "$@"')
        status, said, told = spq_dask(["check"], file(TEXT), part=each)
        self.assertEqual((status, said), (4, b"error: worker\n"))
        self.assertIn("spq-part", told)
        later = script('[ "$1" = split ] || exec "$PART" "$@"; "$PART" "$@" | LC_ALL=C sed "s/^spq-part 2 .*/spq-part 2 9.9.9/"')
        self.assertEqual(spq_dask(["check", "--blocksize", "1KiB"], file(TEXT), part=later)[:2], (4, b"error: worker\n"))

    def test_version_changes(self):
        """A program is replaced while a command runs: the tasks after that compare its version, too."""
        select = ["select", "--split", "subject", "--query", "SELECT * { ?a ?b ?c }"]
        for name, words in [("spq", select), ("part", ["check"]), ("part", ["terms"]), ("part", select)]:
            mark = file(b"", "mark")
            changes = script(f'[ "$1" = --version ] && [ -s {mark} ] && exec echo 9.9.9; case "$1" in split|select) echo >> {mark};; esac; exec "${name.upper()}" "$@"')
            status, said, told = spq_dask([*words, "--blocksize", "1KiB"], file(TEXT), **{"program" if name == "spq" else name: changes})
            self.assertEqual((status, said), (4, b"error: worker\n"))
            self.assertIn("9.9.9", told)

    def test_part_is_missing(self):
        status, said, told = spq_dask(["check"], file(TEXT), part="/nowhere/spq-part")
        self.assertEqual((status, said), (4, b"error: worker\n"))
        self.assertRegex(told, f"^spq-dask: {socket.gethostname()}: .*/nowhere/spq-part.*\n$")
        status, said, told = spq_dask(["check", "--debug"], file(TEXT), part="/nowhere/spq-part")
        self.assertEqual((status, said), (4, b"error: worker\n"))
        self.assertRegex(told, r"^Traceback (.*\n)+spq-dask: .*\n$")

    def test_ends_in_another_way(self):
        for end, line in [("exit 77", "worker"), ("echo 'error: input'; exit 5", "worker"), ("echo 'error: memory'; exit 4", "memory"), ("kill -9 $$", "memory")]:
            part = script(f'[ "$1" = --version ] && exec "$PART" "$@"; {end}')
            status, said, told = spq_dask(["check"], file(TEXT), part=part)
            self.assertEqual((status, said), (4, f"error: {line}\n".encode()))
            self.assertIn(socket.gethostname(), told)
            self.assertEqual(told.count("\n"), 1)

    def test_output_is_partial(self):
        """The terms that were printed before a failure are followed by its line."""
        stops = script('[ "$1" = keep ] || exec "$PART" "$@"; t=$(mktemp); cat > $t; grep -qE "_:b399( |$)" $t && exit 77; exec "$PART" "$@" < $t')
        status, said, told = spq_dask(["terms", "--blocksize", "1KiB"], file(TEXT), part=stops)
        self.assertEqual(status, 4)
        terms, line = said[: -len(b"error: worker\n")], said[-len(b"error: worker\n") :]
        self.assertEqual(line, b"error: worker\n")
        self.assertGreater(len(terms), 1000)
        self.assertTrue(spq(["terms"], TEXT)[1].startswith(terms))
        self.assertRegex(told, r"^spq-dask: .*: ended with status 77\n$|ended with status 77")


class Output(unittest.TestCase):
    def test_is_closed_or_full(self):
        program = os.path.join(testing.ROOT, "distributed", "spq-dask")
        words = [program, "check", "--quiet", "--scheduler", testing.ADDRESS, "--spq", testing.SPQ, "--spq-part", testing.PART, file(TEXT)]
        for place in ["&-", "/dev/full"]:
            ran = subprocess.run(["bash", "-c", f'"$@" >{place}', "bash", *words], stderr=subprocess.PIPE)
            self.assertEqual(ran.returncode, 5, ran.stderr)
            self.assertRegex(ran.stderr, rb"^spq-dask: .*\n$")


class Gone(unittest.TestCase):
    """A cluster of its own, with one worker, that ends."""

    def setUp(self):
        place = os.path.join(os.path.dirname(file(b"")), "scheduler.json")
        self.scheduler = testing.start_scheduler(place)
        self.addCleanup(self.scheduler.kill)
        testing.wait_for(lambda: os.path.exists(place) and os.path.getsize(place) > 0)
        with open(place) as source:
            self.address = json.load(source)["address"]
        self.worker = testing.start_worker(self.address)
        self.addCleanup(self.worker.kill)
        with Client(self.address, set_as_default=False) as client:
            client.wait_for_workers(1, timeout=60)

    def during_a_run(self, process: subprocess.Popen) -> None:
        """Kills a process while a command runs, which ends with one line."""
        started = file(b"", "started")
        slow = script(f'[ "$1" = split ] || exec "$PART" "$@"; echo >> {started}; sleep 30; exec "$PART" "$@"')
        program = os.path.join(testing.ROOT, "distributed", "spq-dask")
        words = [program, "check", "--quiet", "--wait", "4", "--scheduler", self.address, "--spq", testing.SPQ, "--spq-part", slow, file(TEXT)]
        ran = subprocess.Popen(words, stdout=subprocess.PIPE, stderr=subprocess.PIPE)
        testing.wait_for(lambda: os.path.getsize(started) > 0, 60)
        process.kill()
        said, told = ran.communicate(timeout=90)
        self.assertEqual((ran.returncode, said), (4, b"error: worker\n"), told)
        self.assertRegex(told, rf"^spq-dask: .*{self.address}.*\n$".encode())

    def test_scheduler(self):
        self.during_a_run(self.scheduler)

    def test_worker(self):
        self.during_a_run(self.worker)

    def test_worker_with_a_result(self):
        """The worker stops and then dies while its result is fetched."""
        with Client(self.address, set_as_default=False) as client, mock.patch.object(SCRIPT, "look", lambda programs: ("", "")):
            run = SCRIPT.Run(client, argparse.Namespace(wait=4, spq="", spq_part=""))
            result = client.submit(bytes, 50_000_000)
            run.finish([result])
            self.worker.send_signal(signal.SIGSTOP)
            threading.Timer(2, self.worker.kill).start()
            with self.assertRaises(SCRIPT.Failed) as raised:
                run.results([result])
        line, reason = raised.exception.args
        self.assertEqual(line, "worker")
        self.assertIn("no worker for 4 seconds", reason)


class Workers(unittest.TestCase):
    def test_one_is_killed(self):
        """A worker is killed while it runs `spq`, and another after it has results."""
        slow, later = script('sleep 0.2; exec "$SPQ" "$@"'), script('sleep 0.2; exec "$PART" "$@"')
        for words in [["check"], ["terms"]]:
            found = []
            run = threading.Thread(target=lambda: found.append(outcome([*words, "--blocksize", "400"], file(TEXT), program=slow, part=later)))
            before = testing.workers()
            run.start()
            busy: list[str] = []  # workers with the result of a block
            blocks = lambda: [address for address, keys in testing.CLIENT.has_what().items() if any(key.startswith("split") for key in keys)]
            testing.wait_for(lambda: busy.extend(blocks()) or busy, 120)
            os.kill(before[busy[0]], signal.SIGKILL)
            run.join(300)
            self.assertEqual(found and found[0][:2], spq(words, TEXT), found)
            self.assertLess(len(testing.workers()), 3)
            testing.restore_workers()

    def test_dask_warns(self):
        """The only worker of a cluster of its own is killed: Dask says so, and starts another one."""
        mark = file(b"", "mark")
        once = script(f'[ "$1" = split ] && [ ! -s {mark} ] && echo > {mark} && kill -9 $PPID; exec "$PART" "$@"')
        program = os.path.join(testing.ROOT, "distributed", "spq-dask")
        words = [program, "check", "--quiet", "--processes", "1", "--spq", testing.SPQ, "--spq-part", once, file(TEXT)]
        ran = subprocess.run(words, capture_output=True)
        self.assertEqual((ran.returncode, ran.stdout), spq(["check"], TEXT))
        self.assertRegex(ran.stderr, rb"distributed.nanny - WARNING - Restarting worker\n")
