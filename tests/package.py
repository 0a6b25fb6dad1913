#!/usr/bin/env python3
"""Tests the files of a release: two runs of ./package give the same bytes, and the archives hold what they should.

    package.py SPQ SPQ_PART              packs the programs twice, in folders of other names, with another umask
    package.py SPQ SPQ_PART --rebuild    also proves and builds the programs again in a clone in another folder, and compares the
                                         executables; takes about ten processor minutes, so the gate does not do it

Unpacks the tar archive, runs the executables, and checks the sums. Where dpkg-deb is installed, it reads the package too.
"""
import argparse
import hashlib
import os
import shutil
import subprocess
import sys
import tempfile

HERE = os.path.dirname(os.path.abspath(__file__))
ROOT = os.path.dirname(HERE)


def read(path):
    with open(path, "rb") as file:
        return file.read()


def packed(programs, room, name, mask):
    """Runs ./package into a new folder with this umask, and returns the files: `{name: bytes}`."""
    folder = f"{room}/{name}"
    subprocess.run(["sh", "-c", f'umask {mask}; exec "$0" "$@"', f"{ROOT}/package", *programs, "--to", folder], check=True, stdout=subprocess.DEVNULL)
    return folder, {it: read(f"{folder}/{it}") for it in sorted(os.listdir(folder))}


def archive_faults(folder, files, programs, room):
    """Returns what is wrong with the files of a release."""
    tar = next(it for it in files if it.endswith(".tar"))
    subprocess.run(["tar", "-xf", f"{folder}/{tar}", "-C", room], check=True)
    unpacked = f"{room}/{tar.removesuffix('-x86_64-linux.tar')}"
    run = subprocess.run([f"{unpacked}/bin/spq", "check"], input=b"<urn:a> <urn:p> <urn:b> .\n", capture_output=True)
    faults = [] if run.stdout == b"ok 1 quads 3 terms 0 graphs\n" else [f"the unpacked spq wrote {run.stdout!r}"]
    part = subprocess.run([f"{unpacked}/bin/spq-part", "--version"], capture_output=True)
    if not part.stdout.startswith(b"spq-part "):
        faults.append(f"the unpacked spq-part wrote {part.stdout!r}")
    for program in programs:
        if hashlib.sha256(read(program)).hexdigest() not in files["BUILD.txt"].decode():
            faults.append(f"BUILD.txt has another sum of {program}")
    sums = subprocess.run(["sha256sum", "--check", "--quiet", "SHA256SUMS"], cwd=folder, capture_output=True, text=True)
    return faults + ([sums.stdout] if sums.returncode else []) + package_faults(folder, files)


def package_faults(folder, files):
    """Returns what is wrong with the Debian package, as dpkg-deb reads it."""
    if not shutil.which("dpkg-deb"):
        return []
    package = f"{folder}/{next(it for it in files if it.endswith('.deb'))}"
    listed = subprocess.run(["dpkg-deb", "--contents", package], capture_output=True, text=True)
    shared = ["man/man1/spq.1", "bash-completion/completions/spq", "bash-completion/completions/spq-part", "doc/spq/LICENSE"]
    wanted = ["./usr/bin/spq", "./usr/bin/spq-part", *(f"./usr/share/{it}" for it in shared)]
    return [listed.stderr] if listed.returncode else [f"the package lacks {it}" for it in wanted if f" {it}\n" not in listed.stdout]


def rebuilt(room):
    """Proves and builds the programs again, in a clone in another folder, and returns their paths.

    The kit keeps what it built of a text. So the clone's main files get a comment that no earlier build had.
    """
    clone = f"{room}/another folder"
    subprocess.run(["git", "clone", "--quiet", ROOT, clone], check=True)
    for crate in ("spq", "spq_part"):
        with open(f"{clone}/crates/{crate}/src/main.rt", "a", encoding="utf-8") as file:
            file.write(f"// Built again in {os.path.basename(room)}.\n")
    subprocess.run([f"{clone}/install", f"{room}/bin"], check=True, stdout=subprocess.DEVNULL)
    return [f"{clone}/out/{name}" for name in ("spq", "spq-part")]


def main():
    words = argparse.ArgumentParser(description=__doc__.partition("\n")[0])
    words.add_argument("programs", nargs=2, metavar="PROGRAM", help="the executables of spq and of spq-part")
    words.add_argument("--rebuild", action="store_true", help="also build the programs again in another folder")
    given = words.parse_args()
    programs = [os.path.abspath(it) for it in given.programs]
    with tempfile.TemporaryDirectory(prefix="spq-dist-") as room:
        folder, first = packed(programs, room, "one", "022")
        second = packed(programs, room, "a second", "077")[1]
        faults = [f"{it} differs between two runs" for it in first if first[it] != second.get(it)]
        faults += archive_faults(folder, first, programs, room)
        if given.rebuild and [read(it) for it in rebuilt(room)] != [read(it) for it in programs]:
            faults.append("a second build in another folder gave other executables")
    print("\n".join(faults) or f"release: {', '.join(first)}: the same bytes twice")
    return 1 if faults else 0


if __name__ == "__main__":
    sys.exit(main())
