"""Runs the program `pinepolo`: that of the environment's PINEPOLO, else that of PATH."""
from __future__ import annotations

import ctypes
import os
import shutil
import signal
import subprocess
import tempfile
from collections.abc import Callable, Iterator, Sequence
from contextlib import contextmanager
from typing import IO

from .errors import DEVICE, DataError

SET_DEATH_SIGNAL = 1


def find() -> str:
    """The path of the program."""
    found = shutil.which(os.environ.get("PINEPOLO") or "pinepolo")
    if not found:
        raise DataError("there is no program pinepolo", "put it on your PATH, or its path into PINEPOLO", DEVICE)
    return found


def ending_with(parent: int) -> Callable[[], None]:
    """What a child does first: it asks the system to be killed when its parent ends."""
    prctl = ctypes.CDLL(None).prctl

    def ask() -> None:
        prctl(SET_DEATH_SIGNAL, signal.SIGKILL)
        if os.getppid() != parent:
            os._exit(1)

    return ask


@contextmanager
def started(words: Sequence[str], kept: Sequence[int] = (), **streams: int) -> Iterator[subprocess.Popen[bytes]]:
    """The program at work, with `kept` files open. It ends with this process, and is killed if the block fails.

    If it fails itself, that is raised.
    """
    with tempfile.TemporaryFile() as faults:
        command = [find(), *words]
        with subprocess.Popen(command, stderr=faults, pass_fds=kept, preexec_fn=ending_with(os.getpid()), **streams) as process:
            try:
                yield process
            except BrokenPipeError:
                pass
            except BaseException:
                process.kill()
                raise
            finally:
                for stream in (process.stdin, process.stdout):
                    close(stream)
            if process.wait():
                faults.seek(0)
                raise fault(words[0], process.returncode, faults.read().decode(errors="replace"))


def close(stream: IO[bytes] | None) -> None:
    if stream:
        try:
            stream.close()
        except BrokenPipeError:
            pass


def fault(verb: str, status: int, text: str) -> DataError:
    """What the program said when it ended with a status, or was killed by a signal."""
    if status < 0:
        return DataError(f"pinepolo {verb} was killed by signal {-status}", "run it again, with more memory if it was short", DEVICE)
    found, before = {"fault": f"pinepolo {verb} ended with status {status}", "next": ""}, ""
    for line in text.splitlines():
        label, _, rest = line.removeprefix("pinepolo: ").partition(": ")
        if label in found:
            found[label] = rest
        elif found["next"]:
            found["next"] += f"\n{line}"
        else:
            before += f"{line}\n"
    return DataError(found["fault"], found["next"], status, before)


def site_words(sites: str | None) -> list[str]:
    """The words that name a SITES file, if there is one."""
    return ["--sites", sites] if sites else []


def check(store: str, sites: str | None) -> str:
    """What `check` says of a sound store. What it says of another one is raised."""
    words = ["check", "--quiet", *site_words(sites), "--", store]
    done = subprocess.run([find(), *words], stdin=subprocess.DEVNULL, stdout=subprocess.PIPE, stderr=subprocess.STDOUT,
                          preexec_fn=ending_with(os.getpid()), check=False)
    text = done.stdout.decode(errors="replace")
    if done.returncode:
        raise fault(words[0], done.returncode, text)
    return text


def answer(words: Sequence[str], **streams: int) -> str:
    """What the program prints on standard output."""
    with started(words, stdout=subprocess.PIPE, **streams) as process:
        assert process.stdout
        text = process.stdout.read().decode()
    return text
