"""Serves the site of one or several offices; `--help` says how."""

# Each page asks for what it shows, so no page is older than its answers, and nothing has to be made anew after a fault;
# a cache would have to know what each command changes. Lists are sorted and parted by the address, so that pages need
# no script. Flask and waitress are in Debian, and the standard library's server is not meant to stand behind a web
# server.

import argparse
import os
from pathlib import Path

from wb_tools import outlive_readers
from wb_tools.answers import FAILED, WORDS
from wb_tools.lists import Refused, parser_of, say
from wb_tools.web.settings import Settings, read_settings

PROGRAM = "wb-web"
THREADS = 8
DESCRIPTION = """Serves pages of HTML on 127.0.0.1 that show where each architecture and each package of one or several
offices stands, since when, what builders did, and what happened last; a web server is put before it. It asks the
offices, which serve on the same machine, and the indexes of their journals, which `wb-history JOURNAL index` makes. It
writes no file, and changes nothing but by the forms of porters who gave a key. Each page has the same address with
.json at its end.

It needs Flask and waitress, in Debian python3-flask and python3-waitress.

The settings are lines KEY=VALUE, with one pair of quotes around a value that has a blank. SUITES has the port of
127.0.0.1 on which the office of each suite serves, INDEXES the index of the journal of each. ARCHS and BUILDERS choose
the architectures and the builders of each that are shown; without them the office is asked for all that it has. PORT is
the one on which the site listens (8090), KEY_FILE is the file with the key that is shown to the offices, if nobody may
read without one, or words SUITE=FILE for each, TITLE stands above its pages, WAIT is how many seconds offices have to
answer what a page asks (10), SILENT after how many hours without a word a builder is called silent (24). FORMS is the
address at which browsers reach the site, if porters may give a key there and act on its pages; FORGET is after how many
seconds without use such a key is forgotten (14400). LOG, TRACKER, BUGS and BINARY are addresses to which the pages
lead, with {source}, {version}, {build}, {arch} and {builder} of a build in LOG, {source} in TRACKER and BUGS, and
{package} in BINARY, for what a package waits for."""
EXAMPLE = """  tools/bin/wb-web --settings web.conf
  tools/bin/wb-web --settings web.conf --port 8091"""
STATUSES = """Status: 0 if it was ended by a signal; 2 if the words of the command line or the settings are wrong; 3 if
the port cannot be had, or Flask or waitress is missing. Messages are on standard error. SOURCE_DATE_EPOCH, if it is
set, is the seconds that are taken for now."""


def read_words() -> argparse.Namespace:
    parser = parser_of(DESCRIPTION, EXAMPLE, STATUSES)
    parser.add_argument(
        "--settings", metavar="FILE", type=Path, default=Path(os.environ.get("WEB_SETTINGS", "/etc/wb/web.conf")),
        help="the settings, else %(default)s",
    )
    parser.add_argument("--port", metavar="P", type=int, choices=range(1, 65536), help="the port, else that of PORT")
    return parser.parse_args()


def serve(settings: Settings, port: int) -> int:
    """Serves until a signal ends it."""
    try:
        import waitress

        from wb_tools.web.app import create
        from wb_tools.web.forms import LARGEST
    except ImportError as why:
        say(PROGRAM, f"{why.name} is missing: in Debian it is in python3-flask or python3-waitress")
        return FAILED
    try:
        waitress.serve(
            create(settings), host="127.0.0.1", port=port, threads=THREADS, ident=None, _quiet=True,
            max_request_body_size=2 * LARGEST if settings.forms else 0, channel_timeout=30,
            inbuf_overflow=3 * LARGEST,  # so that no form, which may have a key in it, is written to a file
            clear_untrusted_proxy_headers=True,
        )
    except OSError as why:
        say(PROGRAM, f"port {port} of 127.0.0.1: {why.strerror}")
        return FAILED
    return 0


def main() -> int:
    outlive_readers()
    words = read_words()
    try:
        settings = read_settings(words.settings)
    except Refused as why:
        say(PROGRAM, str(why))
        return WORDS
    return serve(settings, words.port or settings.port)
