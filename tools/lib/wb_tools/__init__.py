"""What the commands of tools/bin do: a module for each in `commands`, and beside them what several of them share."""
import io
import os
import sys
from pathlib import Path
from typing import Any

BIN = Path(__file__).resolve().parents[2] / "bin"  # where the commands are, in a checkout and in the Debian package


class Output(io.FileIO):
    """Standard output or standard error. Once its reader is gone, as that of `.. | head`, what is written to it is
    dropped: a command then goes on silently, and finishes what it has begun."""

    def write(self, data: Any) -> int:
        """Writes, or drops what nobody reads any more."""
        try:
            return super().write(data)
        except BrokenPipeError:
            nowhere = os.open(os.devnull, os.O_WRONLY)
            os.dup2(nowhere, self.fileno())
            os.close(nowhere)
            return memoryview(data).nbytes


def outlive_readers() -> None:
    """Lets a command outlive the readers of what it says; each command calls it first."""
    for name in ("stdout", "stderr"):
        said = getattr(sys, name)
        if said is None:  # the caller has closed it
            continue
        said.flush()
        raw = Output(said.fileno(), "w", closefd=False)
        buffered = io.BufferedWriter(raw)
        is_direct = name == "stderr" or said.isatty()
        text = io.TextIOWrapper(buffered, said.encoding, said.errors, line_buffering=is_direct)
        setattr(sys, name, text)
