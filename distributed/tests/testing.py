"""A scheduler and workers for the tests, and the two programs that the tests compare."""
import contextlib
import importlib.machinery
import importlib.util
import io
import os
import subprocess
import sys
import tempfile
import time
from types import ModuleType
from typing import Iterator, Optional, Sequence

from distributed import Client

ROOT = os.path.dirname(os.path.dirname(os.path.dirname(os.path.abspath(__file__))))
SPQ = ""
PART = ""
CLIENT: Optional[Client] = None
ADDRESS = ""
FOLDER = ""
_processes: list[subprocess.Popen] = []


def loaded(path: str) -> ModuleType:
    """Returns a script as a module that cannot be imported, so that its code is sent to the workers, as that of a script."""
    loader = importlib.machinery.SourceFileLoader("spq_dask", path)
    module = importlib.util.module_from_spec(importlib.util.spec_from_loader("spq_dask", loader))
    sys.modules["spq_dask"] = module
    loader.exec_module(module)
    return sys.modules.pop("spq_dask")


SCRIPT = loaded(os.path.join(ROOT, "distributed", "spq-dask"))
SCRIPT.connected = lambda given: contextlib.nullcontext(CLIENT)


def start(*words: str) -> subprocess.Popen:
    """Starts a process of Dask in a folder from which it cannot import this package."""
    with open(os.path.join(FOLDER, "log"), "ab") as log:
        ran = subprocess.Popen([sys.executable, "-m", *words], cwd=FOLDER, env=environment(), stdout=log, stderr=log)
    _processes.append(ran)
    return ran


def start_scheduler(place: str) -> subprocess.Popen:
    """Starts a scheduler, which writes its address to a file."""
    return start("distributed.cli.dask_scheduler", "--host", "127.0.0.1", "--port", "0", "--dashboard-address", "127.0.0.1:0",
                 "--scheduler-file", place)


def environment() -> dict[str, str]:
    """Returns the environment of this process with `spq` and `spq-dask` on the PATH."""
    place = os.path.join(FOLDER, "bin")
    if not os.path.exists(place):
        os.mkdir(place)
        os.symlink(SPQ, os.path.join(place, "spq"))
        os.symlink(PART, os.path.join(place, "spq-part"))
        os.symlink(os.path.join(ROOT, "distributed", "spq-dask"), os.path.join(place, "spq-dask"))
    return dict(os.environ, PATH=place + os.pathsep + os.environ["PATH"], DASK_SCHEDULER_ADDRESS=ADDRESS)


def start_worker(address: str = "") -> subprocess.Popen:
    """Starts a worker with one thread, which is not started again if it dies."""
    return start("distributed.cli.dask_worker", address or ADDRESS, "--host", "127.0.0.1", "--nthreads", "1", "--no-nanny",
                 "--memory-limit", "1GiB", "--no-dashboard", "--local-directory", FOLDER)


@contextlib.contextmanager
def cluster() -> Iterator[None]:
    """Runs a scheduler and three workers on the loopback interface, and a client of them."""
    global CLIENT, ADDRESS, FOLDER
    with tempfile.TemporaryDirectory() as FOLDER:
        place = os.path.join(FOLDER, "scheduler.json")
        start_scheduler(place)
        try:
            with Client(scheduler_file=place, timeout=60) as CLIENT:
                ADDRESS = CLIENT.scheduler.address
                for _ in range(3):
                    start_worker()
                CLIENT.wait_for_workers(3, timeout=60)
                yield
        finally:
            stop()


def stop() -> None:
    """Ends the scheduler and the workers."""
    for process in _processes:
        process.kill()
        process.wait()


def workers() -> dict:
    """Returns the process of each worker by its address."""
    return CLIENT.run(os.getpid)


def restore_workers() -> None:
    """Starts workers until there are three again."""
    for _ in range(3 - len(workers())):
        start_worker()
    CLIENT.wait_for_workers(3, timeout=60)


def file(text: bytes, name: str = "document.nq") -> str:
    """Writes a file in a new folder and returns its path."""
    path = os.path.join(tempfile.mkdtemp(dir=FOLDER), name)
    with open(path, "wb") as out:
        out.write(text)
    return path


def script(text: str) -> str:
    """Writes a shell script that replaces `spq` or `spq-part`, and returns its path."""
    path = file(f"#!/bin/sh\nSPQ={SPQ}\nPART={PART}\n{text}\n".encode(), "stand-in")
    os.chmod(path, 0o755)
    return path


def spq(words: Sequence[str], text: bytes) -> tuple[int, bytes]:
    """Runs `spq` over a whole document."""
    ran = subprocess.run([SPQ, *words], input=text, stdout=subprocess.PIPE, stderr=subprocess.DEVNULL)
    return ran.returncode, ran.stdout


def spq_dask(words: Sequence[str], *files: str, program: Optional[str] = None, part: Optional[str] = None) -> tuple[int, bytes, str]:
    """Runs spq-dask in this process, with the client. Returns its status, its output, and what it prints for the user."""
    out, told = io.BytesIO(), io.StringIO()
    with contextlib.redirect_stderr(told):
        programs = ["--spq", program or SPQ, "--spq-part", part or PART]
        status = SCRIPT.run_words([words[0], "--quiet", *programs, *words[1:], *files], out)
    return status, out.getvalue(), told.getvalue()


def wait_for(condition, seconds: float = 120) -> None:
    """Waits until a condition holds."""
    end = time.monotonic() + seconds
    while not condition():
        if time.monotonic() > end:
            raise TimeoutError
        time.sleep(0.02)
