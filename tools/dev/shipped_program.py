"""The shipped program: the folder release/ with the proved program, packed, and what it was built from. For
tools/dev/make-shipped-program, which makes it, the tests that hold it to the gate, and the package. ./wb reads the same
folder by the same rule, without Python.
"""
from __future__ import annotations

import gzip
import hashlib
import os
import platform
import re
import subprocess
import zlib
from dataclasses import dataclass
from pathlib import Path

PARTS = ("src", "specs", "proofs")
HEAD = """\
# The proved program wb, packed in wb.gz, and what it was built from: the checksum of its bytes, that of its sources,
# the kit that proved and built it, and the machine that it runs on. tools/dev/make-shipped-program makes this file,
# ./wb reads it, and ./check holds it to what it proves.
"""


class Fault(Exception):
    """Why there is no shipped program, or why it is not what release/ says."""


@dataclass(frozen=True)
class Manifest:
    """What release/manifest says: two checksums (SHA-256), the kit's line as `rt version` prints it, and the machine as
    `uname -sm` prints it."""

    program: str
    sources: str
    kit: str
    machine: str

    def text(self) -> str:
        return HEAD + "".join(f"{key} {value}\n" for key, value in vars(self).items())


def sum_of(data: bytes) -> str:
    return hashlib.sha256(data).hexdigest()


def machine() -> str:
    return f"{platform.system()} {platform.machine()}"


# ---- what the program is built from


def crate_lines(root: Path) -> dict[str, str]:
    """The line of crates.txt, without its comment, of the crate wb and of each that it stands on."""
    every = {}
    for line in (root / "crates.txt").read_text(encoding="utf-8").splitlines():
        line = line.strip(" \t").partition("#")[0]
        if ":" in line:
            every[re.split("[: ]", line, maxsplit=1)[0]] = line
    wanted, found = ["wb"], {}
    while wanted:
        name = wanted.pop()
        if name in every and name not in found:
            found[name] = every[name]
            wanted += every[name].partition(":")[2].split()
    return found


def source_files(root: Path) -> list[str]:
    """HANDLES and the files in src, specs and proofs of these crates, by their names from the root, in the order of the
    names' bytes."""
    found = ["HANDLES"]
    for crate in crate_lines(root):
        for part in PARTS:
            for folder, _, names in os.walk(root / "crates" / crate / part):
                found += [os.path.relpath(os.path.join(folder, name), root) for name in names]
    return sorted(found, key=os.fsencode)


def sources_sum(root: Path) -> str:
    """The checksum of what `sha256sum --zero` prints of these files, and of the lines of the crates in the order of
    their bytes."""
    summed = hashlib.sha256()
    for name in source_files(root):
        summed.update(f"{sum_of((root / name).read_bytes())}  ".encode() + os.fsencode(name) + b"\0")
    for line in sorted(line.encode() for line in crate_lines(root).values()):
        summed.update(line + b"\n")
    return summed.hexdigest()


# ---- release/


def read_manifest(root: Path) -> Manifest | None:
    """What release/manifest says, or None if there is no such file."""
    file = root / "release/manifest"
    if not file.exists():
        return None
    every = file.read_text(encoding="utf-8").splitlines()
    lines = [line.split(" ", 1) for line in every if line and not line.startswith("#")]
    said = {line[0]: line[1] for line in lines if len(line) == 2}
    sums = [said.get("program", ""), said.get("sources", "")]
    are_sums = all(re.fullmatch("[0-9a-f]{64}", it) for it in sums)
    if len(lines) != 4 or set(said) != set(Manifest.__annotations__) or not are_sums:
        raise Fault("release/manifest is malformed")
    return Manifest(**said)


def unpacked(root: Path, manifest: Manifest) -> bytes:
    """The bytes of the shipped program, which have the checksum that the manifest names."""
    try:
        data = gzip.decompress((root / "release/wb.gz").read_bytes())
    except (OSError, EOFError, zlib.error) as error:
        raise Fault(f"release/wb.gz cannot be unpacked: {error}") from None
    if sum_of(data) != manifest.program:
        raise Fault("release/wb.gz is not the program that release/manifest names")
    return data


def write_shipped(root: Path, program: bytes, kit: str) -> Manifest:
    """Makes release/ of a program that was built from the sources as they stand. Of the same program it has the same
    bytes."""
    manifest = Manifest(sum_of(program), sources_sum(root), kit, machine())
    folder = root / "release"
    folder.mkdir(exist_ok=True)
    for name, data in (("wb.gz", gzip.compress(program, 9, mtime=0)), ("manifest", manifest.text().encode())):
        (folder / f".{name}").write_bytes(data)
        os.replace(folder / f".{name}", folder / name)
    return manifest


def shipped_for(root: Path) -> bytes | None:
    """The shipped program, if there is one of the sources as they stand."""
    manifest = read_manifest(root)
    return unpacked(root, manifest) if manifest and manifest.sources == sources_sum(root) else None


def program_of(root: Path) -> Path:
    """The program that ./wb runs, for a package: the shipped one if release/ has one of these sources, else the one
    that is proved and built here."""
    silent = {"stdin": subprocess.DEVNULL, "stdout": subprocess.DEVNULL}
    done = subprocess.run([root / "wb", "--version"], check=False, **silent)
    program = root / "crates/wb/out/wb"
    if done.returncode != 0 or not program.exists():
        there = "a" if program.exists() else "no"
        raise Fault(f"./wb --version ended with {done.returncode}, and there is {there} program crates/wb/out/wb")
    shipped = shipped_for(root)
    if shipped is not None and program.read_bytes() != shipped:
        why = "though that is of the same sources: ./check says which is right"
        raise Fault(f"crates/wb/out/wb is not the program of release/, {why}")
    return program


# ---- what the gate built


def gates_program(root: Path) -> bytes:
    """The program that stands in crates/wb/out and that the gate has run on its stored run. An unpacked one, or one
    that `rt run` or ./wb built, is newer than that run."""
    out = root / "crates/wb/out"
    program, record, ran = out / "wb", out / "wb.built", out / "stdout"
    if not os.access(program, os.X_OK):
        raise Fault("there is no crates/wb/out/wb: rt ci builds it")
    if record.exists() and record.read_text(encoding="utf-8").partition("\n")[0] == "shipped":
        raise Fault("crates/wb/out/wb was unpacked from release/, and not built here: rt ci builds it")
    if not ran.exists() or ran.stat().st_mtime_ns < program.stat().st_mtime_ns:
        raise Fault("the gate has not run crates/wb/out/wb as it stands: rt ci builds and runs it")
    if ran.read_bytes() != (root / "crates/wb/stdout").read_bytes():
        raise Fault("in the gate crates/wb/out/wb wrote something else than crates/wb/stdout")
    return program.read_bytes()
