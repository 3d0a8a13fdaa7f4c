"""`rt try`, as `./compactd` and `./check` begin it: without the check that it runs beside what it compiles.

That check proves nothing. It reads all sources once more, takes as much of a processor as the compiler, and gives hints about names to
whoever writes code. A proof tells these too, and nothing here waits for them, so this check is ended as soon as it is there."""

import contextlib
import os
import pathlib
import signal
import subprocess
import threading
import time

SECONDS = 0.05  # between two looks


def begin(words, **how):
    """Begins `rt try` with these words."""
    trying = subprocess.Popen(["rt", "try", *words], **how)
    threading.Thread(target=end_check_beside, args=(trying,), daemon=True).start()
    return trying


def end_check_beside(trying):
    """Ends the check beside this `rt try`. Where the kit has none, or the system doesn't tell of it, nothing is ended."""
    while trying.poll() is None:
        for child in told(f"{trying.pid}/task/{trying.pid}/children").split():
            if b"check" in told(f"{int(child)}/cmdline").split(b"\0"):
                with contextlib.suppress(OSError):
                    os.kill(int(child), signal.SIGKILL)
                return
        time.sleep(SECONDS)


def told(file):
    """What the system tells of a process in this file, or nothing."""
    with contextlib.suppress(OSError):
        return pathlib.Path("/proc", file).read_bytes()
    return b""
