"""What all tests share: where things are, the programs that are tried and their runs, what a test expects, and `main`,
which runs the tests of a script. Once this module is imported, those of tools/lib and tools/dev can be too.

From the environment: WB is the program, ./wb of this repository where it is not set; TRIALS is that of crates/trials;
SEED is added to the number of each random choice.
"""
import concurrent.futures
import inspect
import json
import os
import resource
import signal
import socket
import subprocess
import sys
import tempfile
import threading
from pathlib import Path

ROOT = Path(__file__).resolve().parents[2]
HERE = ROOT / "tools/tests"
BIN, LIB, DEV = (ROOT / "tools" / name for name in ("bin", "lib", "dev"))
sys.path += [str(LIB), str(DEV)]

WB = os.path.abspath(os.environ.get("WB", ROOT / "wb"))
SEED = int(os.environ.get("SEED", "0"))
WAIT = 60  # seconds after which a run counts as one that does not end
BUILDING = threading.Lock()
PRINTS = """\
Prints 'ok NAME', 'failed NAME: why' or 'left out NAME: why' for each test, with more of it on the lines under it, and
how many passed at the end. The status is 0 if none failed, and 2 if the words are wrong."""
SHOWN = 40  # lines at most of what is amiss


# ---- what a test expects


class Failure(Exception):
    """Why a test failed."""


class LeftOut(Exception):
    """Why a test could not be tried here; it counts neither as passed nor as failed."""


def expect(holds, why):
    """Fails the test if this does not hold."""
    if not holds:
        raise Failure(why)


def expect_none(amiss):
    """Fails the test if anything is amiss: one line for each."""
    lines = list(amiss)
    expect(not lines, "".join(f"\n    {line}" for line in lines[:SHOWN]))


# ---- the programs


def program():
    """The built program itself, which no script stands before."""
    found = Path(os.environ.get("WB", ROOT / "crates/wb/out/wb")).absolute()
    expect(os.access(found, os.X_OK), f"there is no program {found}: ./wb builds it, or WB names another")
    return found


def trial_program(name="trials"):
    """The path of the program of a crate of tests, which is built if it is missing or older than a source."""
    if name.upper() in os.environ:
        return os.path.abspath(os.environ[name.upper()])
    found = ROOT / "crates" / name / "out" / name
    with BUILDING:
        if is_stale(found):
            print(f"{script()}: building the program", file=sys.stderr)
            silent = {"stdin": subprocess.DEVNULL, "stdout": subprocess.DEVNULL}
            subprocess.run(["rt", "run"], cwd=found.parent.parent, check=True, **silent)
    return str(found)


def is_stale(found):
    """Whether a program is missing, or older than a source of a crate on which it stands."""
    if not found.exists():
        return True
    lines = (ROOT / "crates.txt").read_text(encoding="utf-8").splitlines()
    crates = next(line for line in lines if line.startswith(f"{found.name}:")).replace(":", "").split()
    folders = [ROOT / "crates" / name / kind for name in crates for kind in ("src", "specs", "proofs")]
    made = found.stat().st_mtime
    paths = (path for folder in folders if folder.exists() for path in [folder, *folder.rglob("*")])
    return any(path.stat().st_mtime > made for path in paths)


# ---- runs


def run(folder, lines, store="store", prepare=None):
    """The status and the answers of `wb run` in this folder, over this store if it is not None. Lines are texts, or all
    of them as bytes."""
    text = lines if isinstance(lines, bytes) else "".join(f"{line}\n" for line in lines).encode()
    words = [WB, "run"] if store is None else [WB, "--store", store, "run"]
    options = {"cwd": folder, "capture_output": True, "timeout": WAIT, "preexec_fn": prepare, "check": False}
    try:
        done = subprocess.run(words, input=text, **options)
    except subprocess.TimeoutExpired:
        raise Failure(f"a run in {folder} did not end in {WAIT} seconds") from None
    expect(done.returncode >= 0, f"signal {-done.returncode} ended a run; it said {done.stderr[-300:]}")
    return done.returncode, done.stdout


def answers_of(folder, lines, store="store"):
    """The answers of a run that comes to the end of its input, each as an object."""
    status, said = run(folder, lines, store)
    expect(status in (0, 1), f"status {status}: {said[-300:]}")
    return [json.loads(answer) for answer in said.splitlines()]


def call(words, wanted=0, **options):
    """What a call that ends with this status says, on standard output and standard error."""
    options = {"stdin": subprocess.DEVNULL, "capture_output": True, "text": True, "timeout": 120, **options}
    done = subprocess.run(words, check=False, **options)
    called, said = " ".join(map(str, words[-6:])), f"{done.stdout[-500:]}{done.stderr[-800:]}"
    expect(done.returncode == wanted, f"{called} ended with {done.returncode} in place of {wanted}: {said}")
    return done.stdout, done.stderr


def limit_files(size):
    """For `run`: no file of the program may grow beyond so many bytes, as on a full disk."""

    def prepare():
        signal.signal(signal.SIGXFSZ, signal.SIG_IGN)
        resource.setrlimit(resource.RLIMIT_FSIZE, (size, size))

    return prepare


def free_port():
    """A port of 127.0.0.1 that no program has."""
    with socket.socket() as probe:
        probe.bind(("127.0.0.1", 0))
        return probe.getsockname()[1]


def listens(port):
    """Whether some program listens on the port, which takes no connection to find out."""
    wanted = f"0100007F:{port:04X}"
    lines = Path("/proc/net/tcp").read_text(encoding="ascii").splitlines()[1:]
    return any(words[1] == wanted and words[3] == "0A" for words in map(str.split, lines))


# ---- the tests of a script


def script():
    """The name of the script that runs."""
    return Path(sys.argv[0]).stem


def main(tests, at_once=1):
    """Runs the tests of a script, or those that its words name, so many at once: functions, or functions by name. One
    that has a parameter is given an empty folder; what one answers is printed under its name. Prints 'ok SCRIPT_NAME'
    or 'failed SCRIPT_NAME: why' for each, and how many passed. Gives the status: 0 only if all passed, and 2 if the
    words are wrong."""
    by_name = tests if isinstance(tests, dict) else {test.__name__: test for test in tests}
    names = sys.argv[1:]
    if names in (["--help"], ["-h"]):
        print(f"{sys.modules['__main__'].__doc__.strip()}\n\n{PRINTS}")
        return 0
    for name in names:
        if name not in by_name:
            print(f"{script()}: there is no test {name}", file=sys.stderr)
            return 2
    chosen = names or list(by_name)
    with concurrent.futures.ThreadPoolExecutor(at_once) as threads:
        each = map if at_once == 1 else threads.map  # alone a test has the main thread, which hears signals
        passed = [shown(*found) for found in each(lambda name: tried(name, by_name[name]), chosen)]
    failed, left_out = passed.count(False), passed.count(None)
    print(f"{passed.count(True)} passed, {failed} failed" + (f", {left_out} left out" if left_out else ""))
    return 1 if failed or not chosen else 0


def tried(name, test):
    """Whether a test passed, or none if it was left out, and what is printed of it."""
    name = f"{script().removeprefix('test_')}_{name}"
    try:
        with tempfile.TemporaryDirectory() as folder:
            more = test(Path(folder)) if inspect.signature(test).parameters else test()
        return True, f"ok {name}" + (f"\n    {more}" if more else "")
    except LeftOut as why:
        return None, f"left out {name}: {why}"
    except Exception as why:  # whatever it is, the other tests are run
        type_of = "" if isinstance(why, Failure) else f"{type(why).__name__}: "
        return False, f"failed {name}: {type_of}{why}"


def shown(passed, text):
    """Prints what is to be said of a test as soon as it is known."""
    print(text, flush=True)
    return passed
