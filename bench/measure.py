"""Times of whole programs: user and system time together, so that waiting for a disk or for others doesn't count."""

import os
import subprocess
from pathlib import Path

PROGRAM = Path(__file__).resolve().parent.parent / "crates/sx_main/out/sx_main"


def seconds(*words, status=0):
    """The user and system seconds of a program whose output is dropped, and its peak memory in KB."""
    with open(os.devnull, "w") as nowhere:
        started = subprocess.Popen([str(word) for word in words], stdout=nowhere)
        _, ended, used = os.wait4(started.pid, 0)
        started.returncode = os.waitstatus_to_exitcode(ended)
    if started.returncode != status:
        raise SystemExit(f"bench: {' '.join(map(str, words))}: status {started.returncode}")
    return used.ru_utime + used.ru_stime, used.ru_maxrss


def best(*words, turns=3):
    """The least of some runs, since whatever else runs on the machine can only add to it."""
    return min(seconds(*words) for _ in range(turns))


def apart(make):
    """Makes evidence in a process of its own: what that needs of memory would count as the measured program's."""
    maker = os.fork()
    if maker == 0:
        make()
        os._exit(0)
    if os.waitpid(maker, 0)[1] != 0:
        raise SystemExit("bench: the evidence could not be made")


def memory_of(peak, case):
    """The peak memory in KB as a share of the files' bytes, where these are many enough for that to say something."""
    size = sum(Path(path).stat().st_size for path in files_of(case))
    return f"; memory {peak * 1024 / size:.2f} times the files" if size >= 64_000_000 else ""


def files_of(case):
    return [path for path in (f"{case}{ending}" for ending in ("", "-wal", "-journal")) if os.path.exists(path)]
