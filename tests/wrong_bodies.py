#!/usr/bin/env python3
"""Checks mutants: the prover must reject each of them.

    wrong_bodies.py --gate [--jobs N] [CRATE ..]                    the gate's mutants
    wrong_bodies.py [--jobs N] [--since REV] [--anew] [CRATE ..]    all others

A mutant is a file crates/CRATE/wrong-bodies/NAME.edit, or gate/NAME.edit in that folder: an edit that makes a
function of the crate wrong (docs/MUTANTS.md). The script applies it to a copy of the crate and has the prover check
the functions that it changes. They must be proved without the edit, and must not be proved with it.

A function is proved from the contracts of those that it calls, not from their bodies. So mutants of different functions
are checked in one run, and each needs an error of its own: one in a function that it changes, or in the proof of
one. A mutant with no such error is checked alone, and then over the whole crate. So is a mutant that changes something other
than functions; if it names the function with the fault, by a line `in: PATH`, that function is checked first. An error that only
says that a proof file names what the edit took away does not count.

The libraries below a crate are those that `rt ci` left in crates/*/out, if they are newer than their sources.
Otherwise the script builds them in a temporary folder, which takes as long as a proof of these crates.

Without --gate the script remembers each mutant that was rejected, by a checksum of the mutant, of its crate and of
the crates below. So a run after an interrupt goes on where that one stopped, and a later run checks only what has changed.

It prints a line for each mutant. The last line counts them, and the exit status is 1 if a mutant was not rejected.
Needs Python 3 and the Rattle kit.
"""
import argparse
import hashlib
import json
import os
import re
import shutil
import subprocess
import sys
import tempfile
import threading
from concurrent.futures import ThreadPoolExecutor

from sources import ROOT, Function, Source, crates, mutants, original

CACHE = os.path.join(os.environ.get("XDG_CACHE_HOME") or os.path.expanduser("~/.cache"), "spq", "mutants.json")
PARTS = ("src", "specs", "proofs")
# An error of the prover, or a goal that is not proved, with its place. The prover also prints other notes with a place.
ERROR = re.compile(r"^(?P<goal>note: )?(?:\./)?(?P<file>(?:src|specs|proofs)/\S+?):(?P<line>\d+):\d+: (?(goal)(?:it is not proved|`search` found no proof)|error\b).*$", re.M)
# What the prover says of a text that it cannot read, and of a proof that names what the edit took away.
UNREADABLE = re.compile(r"is not in scope|has no field|has no `|is no name|was not admitted|operand is missing|expected the end|cannot continue")


# Why a mutant shows nothing: a right body with these names would be rejected, too.
ONLY_NAMES = "it is rejected only because a proof file names what the edit took away"


def kit():
    """Returns the folder of the Rattle kit."""
    return os.path.dirname(subprocess.run(["rt", "doc"], check=True, capture_output=True, text=True).stdout.strip())


def below(crate):
    """Returns the repository's crates below a crate."""
    found = set()
    for used in crates()[crate]:
        if used in crates():
            found |= {used} | below(used)
    return found


def newest_source(crate):
    """Returns when a file of the crate changed last."""
    files = [f"{at}/{name}" for part in PARTS for at, _, names in os.walk(f"{ROOT}/crates/{crate}/{part}") for name in names]
    return max(os.path.getmtime(file) for file in files)


def root_of(crate):
    """Returns the root file of a library or a program."""
    return next(it for it in ("src/lib.rt", "src/main.rt") if os.path.isfile(f"{ROOT}/crates/{crate}/{it}"))


class Prover:
    """Runs the prover on copies of crates, over libraries that were built before."""

    def __init__(self, room):
        self.room, self.kit = room, kit()
        self.folders, self.locks = {}, {crate: threading.Lock() for crate in crates()}

    def words(self, crate):
        """Returns the words that name a crate, its libraries and the kit's logic."""
        uses, kits = crates()[crate], f"{self.kit}/rlibs"
        found = ["--crate-name", crate, root_of(crate), "--extern", f"std={kits}/std.rlib"]
        for used in uses:
            found += ["--extern", f"{used}={self.folders.get(used, kits)}/{used}.rlib"]
        for folder in [self.folders[it] for it in sorted(below(crate))] + [kits]:
            found += ["-L", f"dependency={folder}"]
        return found + ["--antt-project", f"{self.kit}/rattle/logic/antt-project.json", "--logic-built", f"{self.kit}/logic_built", "--jobs", "1"]

    def run(self, verb, folder, crate, more):
        words = [f"{self.kit}/bin/rattle", verb, *self.words(crate), *more]
        return subprocess.run(words, cwd=folder, stdin=subprocess.DEVNULL, stdout=subprocess.PIPE, stderr=subprocess.STDOUT, text=True, errors="replace")

    def build_below(self, crate):
        """Finds or builds the libraries below a crate."""
        for used in [it for it in crates()[crate] if it in crates()]:
            self.build_below(used)
            with self.locks[used]:
                if used not in self.folders:
                    self.folders[used] = self.built(used) or self.build(used)

    def built(self, crate):
        """Returns the folder of a crate's library, if it is newer than its sources.

        The files of a library that `rt ci` kept from an earlier run are as old as that run. Its folder is new.
        """
        folder = f"{ROOT}/crates/{crate}/out/rlib"
        library = f"{folder}/{crate}.rlib"
        return folder if os.path.isdir(library) and os.path.getmtime(library) > newest_source(crate) else None

    def build(self, crate):
        """Proves a crate and builds its library."""
        folder = f"{self.room}/{crate}"
        os.mkdir(folder)
        ran = self.run("build", f"{ROOT}/crates/{crate}", crate, ["--statements", "-o", f"{folder}/{crate}.rlib"])
        if ran.returncode:
            print(ran.stdout[-3000:])
            sys.exit(f"wrong_bodies.py: the crate {crate} is not proved")
        return folder

    def check(self, crate, folder, paths, kept):
        """Checks the functions with these paths, or all, and keeps what is proved in a folder. Returns the status and the output."""
        ran = self.run("check", folder, crate, ["--incremental", kept, *(f"--only={it}" for it in paths)])
        return ran.returncode, ran.stdout


def is_of_functions(mutant):
    """Returns whether a mutant changes functions alone."""
    return bool(mutant.prover_paths) and None not in mutant.prover_paths


def paths_of(mutant):
    """Returns the paths of the functions that a mutant changes. If it changes something else too: of the one that it names, or none."""
    if is_of_functions(mutant):
        return sorted(set(mutant.prover_paths))
    return [mutant.faulty] if mutant.faulty else []


def modules_of(paths):
    return sorted({path.rpartition("::")[0] or path for path in paths})


class Crate:
    """A crate, and a folder that keeps what is proved of it."""

    def __init__(self, prover, name, kept):
        self.prover, self.name, self.kept, self.is_by_module = prover, name, kept, False

    def is_proved(self, named):
        """Checks the unchanged functions that the mutants change, and returns whether they are proved."""
        paths = sorted({path for mutant in named for path in paths_of(mutant)})
        folder = f"{ROOT}/crates/{self.name}"
        status, said = self.prover.check(self.name, folder, paths, self.kept)
        # (status 2: the prover does not know a path)
        self.is_by_module = status == 2
        if self.is_by_module:
            status, said = self.prover.check(self.name, folder, modules_of(paths), self.kept)
        if status:
            print(f"{said[-3000:]}\n{self.name}: the crate itself is not proved, so no mutant was checked", flush=True)
        return not status

    def check(self, batch, is_whole=False):
        """Applies mutants to a copy of the crate, and checks the functions that they change, or all. Returns the status and the output."""
        with tempfile.TemporaryDirectory(prefix="spq-mutant-") as room:
            for part in PARTS:
                if os.path.isdir(f"{ROOT}/crates/{self.name}/{part}"):
                    shutil.copytree(f"{ROOT}/crates/{self.name}/{part}", f"{room}/{part}")
            for path, text in texts_of(batch).items():
                with open(f"{room}/{path}", "w", encoding="utf-8") as file:
                    file.write(text)
            paths = [] if is_whole else sorted({path for mutant in batch for path in paths_of(mutant)})
            return self.prover.check(self.name, room, modules_of(paths) if self.is_by_module else paths, self.kept)

    def rejections(self, batch):
        """Checks mutants together, and returns those with an error of their own, each with that error."""
        status, said = self.check(batch)
        errors, fault = errors_in(status, said)
        found = {}
        for mutant in batch if not fault else []:
            goal = first_goal([it for it in errors if is_of(it, mutant, batch)])
            if goal:
                found[mutant] = goal
        return found

    def rejection_of(self, mutant):
        """Checks a mutant alone. Returns the error by which the prover rejects it, or None and why there is none."""
        if mutant.fault:
            return None, mutant.fault
        is_whole = not paths_of(mutant)
        status, said = self.check([mutant], is_whole)
        if status == 0 and not is_whole:
            status, said = self.check([mutant], True)
        errors, fault = errors_in(status, said)
        goal = None if fault else first_goal(errors)
        return goal, fault or (ONLY_NAMES if errors else "the prover's output names no place")


def batches(named):
    """Groups mutants such that those of a group change different functions, and their edits do not overlap."""
    groups = []
    for mutant in named:
        if mutant.fault or not is_of_functions(mutant):
            groups.append([mutant])
            continue
        for group in groups:
            taken = {place for other in group for place in other.places}
            if is_of_functions(group[0]) and not group[0].fault and not taken & set(mutant.places) and texts_of([*group, mutant]):
                group.append(mutant)
                break
        else:
            groups.append([mutant])
    return groups


def texts_of(batch):
    """Returns the texts of the files that mutants of a crate change, by path, or None if their edits overlap."""
    texts = {}
    for mutant in batch:
        for path, old, new in mutant.edits:
            text = texts.get(path, original(mutant.crate, path))
            if text.count(old) != 1:
                return None
            texts[path] = text.replace(old, new)
    return texts


def errors_in(status, said):
    """Returns the prover's errors and open goals, or none and why the output is no rejection."""
    errors = list(ERROR.finditer(said))
    unreadable = next((it[0] for it in errors if not it["file"].startswith("proofs/") and UNREADABLE.search(it[0])), "")
    last = said.rstrip().rpartition("\n")[2]
    if status == 0:
        return [], "it is still proved"
    if unreadable or not re.match(r"only=\d+ proved=|logic=not-proved", last):
        return [], f"the prover cannot read the edited text: {unreadable or last}"
    return (errors, "") if status == 1 else ([], f"the prover has no verdict: {last}")


def is_of(error, mutant, batch):
    """Returns whether an error is in a function that the mutant changes, or in the proof of one."""
    file, line = error["file"], int(error["line"])
    if file.startswith("src/"):
        text = texts_of(batch).get(file) or original(mutant.crate, file)
        source = Source(mutant.crate, file, text)
        found = source.around(sum(len(it) + 1 for it in text.split("\n")[: line - 1]) + 1)
        # (a line may begin before its item does)
        inside = [it for it in source.functions if text.count("\n", 0, it.start) < line <= text.count("\n", 0, it.end) + 1]
        names = {it.path for it in inside} | ({found.path} if isinstance(found, Function) else set())
        return any(path == file and name in names for path, name in mutant.places)
    folders = file.split("/")[1:-1]
    for path, name in mutant.places:
        module = [it for it in path.removeprefix("src/").removesuffix(".rt").split("/") if it != "lib"]
        if folders[: len(module)] == module and len(folders) > len(module):
            # (a name with a plus is a cycle of calls)
            is_alone = sum(path in {it for it, _ in other.places} for other in batch) == 1
            if folders[-1] == name.rpartition("::")[2] or folders[-1].startswith("+") and is_alone:
                return True
    return False


def first_goal(errors):
    """Returns the first error that is more than a name that the edit took away, or None."""
    return next((it[0] for it in errors if not UNREADABLE.search(it[0])), None)


def checksum(folder):
    total = hashlib.sha256()
    for part in PARTS:
        for at, folders, files in os.walk(f"{folder}/{part}"):
            folders.sort()
            for name in sorted(files):
                with open(f"{at}/{name}", "rb") as file:
                    total.update(f"{os.path.relpath(at, folder)}/{name}\n".encode() + file.read())
    return total.hexdigest()


def key_of(mutant, sums):
    """Returns the key under which the result of a mutant is remembered."""
    with open(f"{ROOT}/{mutant.path}", "rb") as file:
        stands_on = [sums[it] for it in sorted(below(mutant.crate) | {mutant.crate})]
        return hashlib.sha256(repr((mutant.crate, mutant.name, sums["kit"], stands_on)).encode() + file.read()).hexdigest()


class Results:
    """The keys of rejected mutants, and the counts of this run. Several threads add to it."""

    def __init__(self, is_remembered):
        self.is_remembered, self.known, self.lock = is_remembered, set(), threading.Lock()
        self.rejected = self.earlier = self.missed = 0
        if is_remembered and os.path.isfile(CACHE):
            with open(CACHE, encoding="utf-8") as file:
                self.known = set(json.load(file))

    def add(self, mutant, key, rejection, why):
        with self.lock:
            self.rejected, self.missed = self.rejected + bool(rejection), self.missed + (not rejection)
            print(f"{mutant.crate}/{mutant.name}: {'rejected: ' + rejection[:160] if rejection else 'NOT REJECTED: ' + why[:300]}", flush=True)
            if rejection and self.is_remembered:
                self.known.add(key)
                self.write()

    def write(self):
        """Writes the cache anew, so that an interrupt leaves the old one or the new one."""
        os.makedirs(os.path.dirname(CACHE), exist_ok=True)
        with open(f"{CACHE}.new", "w", encoding="utf-8") as file:
            json.dump(sorted(self.known), file)
        os.replace(f"{CACHE}.new", CACHE)


def check_crate(prover, name, keys, results, is_gate):
    """Checks mutants of a crate, given with their keys, over what the checks before proved."""
    prover.build_below(name)
    with tempfile.TemporaryDirectory(prefix="spq-kept-") as kept:
        crate = Crate(prover, name, kept)
        # (the gate has proved the crate)
        is_proved = is_gate or crate.is_proved(keys)
        for batch in batches(keys):
            found = crate.rejections(batch) if is_proved and len(batch) > 1 else {}
            for mutant in batch:
                if not is_proved:
                    results.add(mutant, keys[mutant], None, "the crate itself is not proved")
                elif mutant in found:
                    results.add(mutant, keys[mutant], found[mutant], "")
                else:
                    results.add(mutant, keys[mutant], *crate.rejection_of(mutant))


def changed_since(revision):
    """Returns the crates with files that differ from the revision, and the crates above them."""
    words = ["git", "-C", ROOT, "diff", "--name-only", revision, "--", "crates"]
    named = subprocess.run(words, check=True, capture_output=True, text=True).stdout.split("\n")
    changed = {path.split("/")[1] for path in named if path.count("/") > 1}
    return {crate for crate in crates() if (below(crate) | {crate}) & changed}


def main():
    words = argparse.ArgumentParser(description=__doc__.partition("\n")[0], epilog=f"Results are remembered in {CACHE}.")
    words.add_argument("crates", nargs="*", metavar="CRATE", help="check the mutants of these crates only")
    words.add_argument("--gate", action="store_true", help="check the gate's mutants, whatever earlier runs remembered")
    words.add_argument("--jobs", type=int, default=len(os.sched_getaffinity(0)), metavar="N", help="check N crates at the same time, at 1 to 3 GB each (default: the number of processors)")
    words.add_argument("--since", metavar="REV", help="check only the crates with files that changed since this git revision, and the crates above them")
    words.add_argument("--anew", action="store_true", help="check every mutant again, whatever earlier runs remembered")
    asked = words.parse_args()
    unknown = [it for it in asked.crates if it not in crates()]
    if unknown:
        words.error(f"there is no crate {unknown[0]}")
    if asked.jobs < 1:
        words.error("--jobs takes a number from 1")
    wanted = set(asked.crates or crates()) & (changed_since(asked.since) if asked.since else set(crates()))
    results = Results(not asked.gate)
    sums = {it: checksum(f"{ROOT}/crates/{it}") for it in crates()}
    sums["kit"] = subprocess.run(["rt", "version"], check=True, capture_output=True, text=True).stdout
    left = {}
    for mutant in mutants():
        if mutant.in_gate == asked.gate and mutant.crate in wanted:
            key = key_of(mutant, sums)
            if key in results.known and not asked.anew:
                results.earlier += 1
            else:
                left.setdefault(mutant.crate, {})[mutant] = key
    with tempfile.TemporaryDirectory(prefix="spq-mutants-") as room, ThreadPoolExecutor(asked.jobs) as lanes:
        prover = Prover(room)
        # The crates with most mutants first.
        for run in [lanes.submit(check_crate, prover, it, left[it], results, asked.gate) for it in sorted(left, key=lambda it: -len(left[it]))]:
            run.result()
    print(f"{results.rejected} mutants rejected, {results.earlier} by an earlier run, {results.missed} not rejected")
    return 1 if results.missed else 0


if __name__ == "__main__":
    sys.exit(main())
