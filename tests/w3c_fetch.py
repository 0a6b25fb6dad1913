"""Gets the test suites of the W3C from Debian's source package of rdflib, and the programs that read them, for tests/w3c.py.

The addresses come from the machine's own sources of packages. apt-get checks signatures and checksums. It works in a folder of its
own, so nothing of the machine's configuration changes.
"""
import glob
import os
import re
import shutil
import subprocess
import tarfile
import tempfile

PACKAGES = ["python3-rdflib", "serdi"]
# The suites of Debian whose source package is tried after that of the machine's own one.
RELEASES = ["", "stable", "testing"]
OPTIONS = ["APT::Sandbox::User=root", "Acquire::Retries=0", "Acquire::http::Timeout=20", "Acquire::https::Timeout=20", "DPkg::Lock::Timeout=10"]


class Missing(Exception):
    """What this machine lacks."""


def apt(*words, room=None):
    """Runs apt-get without questions, with these options and files of its own in a folder if one is given."""
    options = [it for option in OPTIONS for it in ("-o", option)]
    if room:
        places = {"Dir::Etc::SourceList": "/dev/null", "Dir::Etc::SourceParts": f"{room}/parts", "Dir::State::Lists": f"{room}/lists", "Dir::Cache": f"{room}/cache"}
        options += [it for name, path in places.items() for it in ("-o", f"{name}={path}")]
    environment = dict(os.environ, DEBIAN_FRONTEND="noninteractive")
    try:
        run = subprocess.run(["apt-get", "-qq", "-y", *options, *words], cwd=room, env=environment, stdin=subprocess.DEVNULL, capture_output=True, timeout=300)
    except subprocess.TimeoutExpired:
        return False
    return run.returncode == 0


def install_packages():
    """Installs the packages where this user may, as the gate does."""
    is_there = shutil.which("serdi") and subprocess.run(["/usr/bin/python3", "-c", "import rdflib"], capture_output=True).returncode == 0
    if not is_there and shutil.which("apt-get") and os.getuid() == 0:
        install = ["install", "--no-install-recommends", *PACKAGES]
        apt(*install) or (apt("update") and apt(*install))


def as_sources(text, is_stanzas, release):
    """Returns a list of package sources as one of source packages, of another release if one is given (which has no security part)."""
    if is_stanzas:
        kept = "\n\n".join(it for it in text.split("\n\n") if not release or "security" not in it)
        kept = re.sub(r"(?m)^Types:.*$", "Types: deb-src", kept)
        return re.sub(r"(?m)^Suites:.*$", f"Suites: {release}", kept) if release else kept
    kept = "\n".join(it for it in text.split("\n") if not release or "security" not in it)
    kept = re.sub(r"(?m)^deb\s", "deb-src ", kept)
    return re.sub(r"(?m)^(deb-src (?:\[[^\]]*\] )?\S+ )\S+", rf"\g<1>{release}", kept) if release else kept


def source_parts(room, release):
    """Writes the machine's own sources of Debian's packages as sources of source packages into a folder."""
    listed = subprocess.run(["apt-get", "indextargets", "--format", "$(SOURCESENTRY)", "Created-By: Packages", "Label: Debian"], capture_output=True, text=True)
    for path in {it.rpartition(":")[0] for it in listed.stdout.split()}:
        with open(path, encoding="utf-8") as file:
            text = as_sources(file.read(), path.endswith(".sources"), release)
        with open(f"{room}/parts/{os.path.basename(path)}", "w", encoding="utf-8") as file:
            file.write(text)


def fetch(place):
    """Puts the suites of Debian's source package of rdflib into a folder. apt-get checks the signature and the checksum."""
    if not shutil.which("apt-get"):
        raise Missing("the suites cannot be fetched: there is no apt-get")
    for release in RELEASES:
        with tempfile.TemporaryDirectory(prefix="w3c-") as room:
            for name in ("parts", "lists/partial", "cache/archives/partial"):
                os.makedirs(f"{room}/{name}")
            source_parts(room, release)
            apt("update", room=room) and apt("source", "--download-only", "--tar-only", "rdflib", room=room)
            archives = glob.glob(f"{room}/rdflib_*.orig.tar.*")
            if archives:
                unpack(archives[0], place)
                return
    raise Missing("the suites cannot be fetched: no source package of rdflib was found")


def unpack(archive, place):
    """Unpacks the files of an archive that are below a folder of the W3C's suites."""
    os.makedirs(place, exist_ok=True)
    names = re.compile(r"/(?:nquads|data-r2|dawg-data-r2|sparql11|data-sparql11)/")
    with tarfile.open(archive) as tar:
        tar.extractall(place, [it for it in tar if it.isfile() and names.search(it.name) and ".." not in it.name and not it.name.startswith("/")])
