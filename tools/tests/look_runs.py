"""What the tests of what a person looks at share: runs in a terminal of a given width, and pages in a browser."""
import contextlib
import html
import json
import os
import pty
import re
import select
import shutil
import subprocess
import time

from harness import BIN, LeftOut, expect

WAIT = 30


def in_terminal(words, said, columns, status=0):
    """What a script shows in a terminal of so many columns; its messages too, if it does not end with 0."""
    ours, theirs = pty.openpty()
    with open(ours, "rb", buffering=0) as shown:
        variables = {**os.environ, "COLUMNS": str(columns), "LINES": "24"}
        process = subprocess.Popen(
            [BIN / words[0], *words[1:]], stdin=subprocess.PIPE, stdout=theirs,
            stderr=theirs if status else subprocess.PIPE, env=variables,
        )
        os.close(theirs)
        with process:
            process.stdin.write(said)
            process.stdin.close()
            parts = []
            while select.select([shown], [], [], WAIT)[0]:
                with contextlib.suppress(OSError):  # the end of a terminal
                    if part := shown.read(65536):
                        parts.append(part)
                        continue
                break
            expect(process.wait(timeout=WAIT) == status, f"{process.stderr and process.stderr.read()}")
    return b"".join(parts).decode().replace("\r\n", "\n")


# A page in frames as wide as screens; the title says what a script makes of each.
FRAMES = """<!DOCTYPE html><meta charset="utf-8"><body><script>
const text = %s, widths = %s, said = [];
widths.forEach((width, at) => {
  const frame = document.createElement("iframe");
  frame.style = `width:${width}px;height:4000px;border:0`;
  frame.onload = () => {
    said[at] = (%s)(frame.contentDocument);
    document.title = JSON.stringify(said);
  };
  frame.srcdoc = text;
  document.body.append(frame);
});
</script>"""


def browser():
    """The browser that is installed; without one the test is left out."""
    found = next(filter(None, map(shutil.which, ("chromium", "chromium-browser", "google-chrome"))), None)
    if not found:
        raise LeftOut("no chromium is installed")
    return found


def forget(profile):
    """Removes what a browser that has ended kept. Its other processes end after it, and write until then."""
    end = time.monotonic() + WAIT
    while profile.exists():
        try:
            shutil.rmtree(profile)
        except OSError:
            if time.monotonic() > end:
                raise
            time.sleep(0.05)


def in_browser(folder, text, widths, script, *options):
    """What a function of JavaScript says of this page on screens of so many pixels; it is given the document."""
    shown = re.sub("<meta http-equiv[^>]*>", "", text)  # so that the frames may be looked into
    frames = FRAMES % (json.dumps(shown).replace("</", "<\\/"), json.dumps(list(widths)), script)
    (folder / "frames.html").write_text(frames)
    words = [
        "--headless", "--no-sandbox", "--disable-gpu", f"--user-data-dir={folder}/browser",
        "--virtual-time-budget=5000", "--dump-dom", *options,
    ]
    done = subprocess.run(
        [browser(), *words, f"file://{folder}/frames.html"], capture_output=True, timeout=4 * WAIT, check=False
    )
    forget(folder / "browser")
    title = re.search("<title>(.*?)</title>", done.stdout.decode(), re.S)
    expect(title, f"the browser says {done.stdout[:300]} {done.stderr[-300:]}")
    found = json.loads(html.unescape(title[1]))
    expect(len(found) == len(widths) and all(found), f"the browser says {found}")
    return found
