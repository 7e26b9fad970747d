"""A throw-away copy of the system for tools/dev/try-buildd, in which Debian's buildd, its mail and an sshd work as
docs/BUILDD.md sets them up. The copy shows the system's own files, and keeps in memory what is written. It is made in a
namespace of its own, with the end of which it is gone."""
import contextlib
import email
import mailbox
import os
import re
import signal
import socket
import subprocess
import textwrap
import threading
import time
from pathlib import Path

from harness import ROOT, expect
from wanna_build_runs import free_port

HOME = "var/lib/buildd"
PACKAGES = "buildd sbuild sudo dupload exim4-daemon-light openssh-server openssh-client libyaml-tiny-perl".split()
LONG = 120  # seconds that buildd has for what it is to do
PAGE = ROOT / "docs/BUILDD.md"
OFFICE = "office.example.org"  # the office's machine, as the page names it
QUICK = "$idle_sleep_time = 1; $nice_level = 0; $max_sbuild_fails = 100; $min_free_space = 1024; $no_detach = 1;"
ERROR = re.compile("E: |Err:|dpkg: error")

SBUILD = r"""#!/bin/bash
# In place of sbuild: notes its words, ends as the name of the source package says, and mails a log.
{ printf 'sbuild'; printf ' %q' "$@"; echo; } >>~/sbuild-calls
last=${!#} source=${last%%_*} version=${last#*_} number='' arch=amd64 dist=sid
from='Source Builder <sbuild>' to=''
for word; do
    case $word in
        --binNMU=*) number=${word#*=} ;;
        --dist=*) dist=${word#*=} ;;
        --mailfrom=*) from=${word#*=} ;;
        --mail-log-to=*) to=${word#*=} ;;
    esac
done
build=$version${number:++b$number}
ended() {
    [[ -z $to ]] || printf '%s\n' "From: $from" "To: $to" \
        "Subject: Log for $1 build of ${source}_$build on $arch (dist=$dist)" '' 'This is a log.' |
        /usr/sbin/sendmail -oi -oem "$to"
    exit "$2"
}
echo "$BASHPID" >~/sbuild-runs
for ((at = 0; at < 900; at++)); do
    [[ $source != slow* || -e ~/go ]] && break
    sleep 0.1
done
tries=$(grep -c " $last\$" ~/sbuild-calls)
case $source in
    fails*) ended attempted 2 ;;
    once*) ((tries > 1)) || ended attempted 2 ;;
    local*) ended given-back 3 ;;
esac
name=${source}_${build#*:}_$arch
cd ~/build || exit 1
echo "$name" >"$name.deb"
cat >"$name.changes" <<CHANGES
Format: 1.8
Date: Thu, 01 Jan 2026 00:00:00 +0000
Source: $source${number:+ ($version)}
Binary: $source
Architecture: $arch
Version: $build
Distribution: $dist
Urgency: low
Maintainer: a <a@example.org>
Changed-By: a <a@example.org>
Description:
 $source - a package
Changes:
 $source ($build) $dist; urgency=low
 .
   * a build
Checksums-Sha1:
 $(sha1sum <"$name.deb" | cut -d' ' -f1) $(stat -c %s "$name.deb") $name.deb
Checksums-Sha256:
 $(sha256sum <"$name.deb" | cut -d' ' -f1) $(stat -c %s "$name.deb") $name.deb
Files:
 $(md5sum <"$name.deb" | cut -d' ' -f1) $(stat -c %s "$name.deb") devel optional $name.deb
CHANGES
ended successful 0
"""


def tell(text):
    print(text, flush=True)


def wait_for(holds, why):
    """Waits until this holds, and gives what it is then."""
    end = time.monotonic() + LONG
    while not (found := holds()):
        expect(time.monotonic() < end, why)
        time.sleep(0.1)
    return found


# ---- what the page says


def block_of_page(begins):
    """The block of code of the page that begins so."""
    text = PAGE.read_text(encoding="utf-8")
    blocks = (textwrap.dedent(found[1]) for found in re.finditer(r"^ *```\w+\n(.*?)^ *```$", text, re.M | re.S))
    found = [block for block in blocks if block.startswith(begins)]
    expect(len(found) == 1, f"{PAGE.name} has {len(found)} blocks that begin with {begins}")
    return found[0]


def phrase_of_page(pattern):
    """What the page says in a sentence, of which the pattern has the place."""
    found = re.findall(pattern, PAGE.read_text(encoding="utf-8"))
    expect(len(found) == 1, f"{PAGE.name} has {len(found)} places of the form {pattern}")
    return found[0]


def changed(text, *changes):
    """A text of the page with others in place of some of its words, each of which stands there once."""
    for old, new in changes:
        expect(text.count(old) == 1, f"{PAGE.name} has {old!r} {text.count(old)} times")
        text = text.replace(old, new)
    return text


def buildd_settings(api, has_mailfrom, is_forced):
    """The page's settings of buildd, by which it does not sleep long, and does not leave its terminal."""
    called = "wanna_build_ssh_host => '',        # wanna-build is called directly\n"
    over_ssh = changed(block_of_page("wanna_build_ssh_host"), ("ConnectTimeout=30", "ConnectTimeout=5"))
    mailfrom = "mailfrom => 'amd64 build daemon <buildd@b1.example.org>',   # answers to a log go there\n"
    return changed(
        block_of_page("$admin_mail"), ("$idle_sleep_time = 20;", QUICK),
        (called, over_ssh if is_forced else f"wanna_build_api => {api}, {called}"),
        (mailfrom, mailfrom if has_mailfrom else "\n"),
    )


def archive_settings(is_forced):
    """The page's archive, with the hook of the upload; what is uploaded is not signed, and is copied to a folder."""
    hook, over_ssh = "'/usr/bin/wanna-build --user=b1 --may-upload %1'", r"The hook of the upload is\s`('[^`]*')`"
    return changed(
        block_of_page("$cfg{'my-archive'}"), ("'scpb', login => 'buildd'", "'copy'"),
        ("/usr/share/dupload/openpgp-check", "/bin/echo checked"),
        (hook, phrase_of_page(over_ssh) if is_forced else hook),
    )


def line_of_key(is_forced, port, key):
    """The page's line for a key of buildd on the office's machine."""
    line = block_of_page('command="wanna-build --forced' if is_forced else "restrict,port-forwarding")
    ends = [] if is_forced else [("127.0.0.1:8080", f"127.0.0.1:{port}")]
    return changed(line, ("ssh-ed25519 AAAA.. buildd@b1\n", key), *ends)


def tunnel_command(own_port, port):
    """The page's command of the tunnel, which finds out sooner that a link hangs."""
    unit = re.search(r"^ExecStart=((?:.*\\\n)*.*)$", block_of_page("[Unit]"), re.M)[1]
    ends = "127.0.0.1:8080:127.0.0.1:8080", f"127.0.0.1:{own_port}:127.0.0.1:{port}"
    return changed(unit.replace("\\\n", " "), ends, ("ServerAliveInterval=10", "ServerAliveInterval=2"))


def key_commands(name, rights, user="buildd", place="~buildd/wanna-build.key"):
    """The page's commands that make a key whose line has this name and these rights, and put it into a file of a
    user."""
    make, put = (line.removeprefix("# ") for line in block_of_page("# (umask 077; wb-office key add").splitlines())
    make = changed(make, ("key add b1 build=b1 > b1.key", f"key add {name} {' '.join(rights)} > {name}.key"))
    places = ("-o buildd -g buildd", f"-o {user} -g {user}"), ("b1.key ~buildd/wanna-build.key", f"{name}.key {place}")
    return make, changed(put, *places)


def accepting_command():
    """What the page says that the user buildd calls once, to accept the host's key."""
    return phrase_of_page(r"# su - buildd -c '(ssh b1@\S+ true)'")


def ending_command():
    """What the page says that the user buildd calls, to let buildd end once its build has."""
    return phrase_of_page(r"the user buildd\s+says `(touch [^`]+)`")


# ---- programs


def run(words, **options):
    """What a program says on standard output. If it fails, why."""
    pipe = subprocess.PIPE
    options = {"stdin": subprocess.DEVNULL, "stdout": pipe, "stderr": pipe, "text": True, "check": False, **options}
    done = subprocess.run(words, **options)
    said = f"{done.stdout}{done.stderr or ''}"
    expect(done.returncode == 0, f"{' '.join(map(str, words))} ended with {done.returncode}:\n{reason_in(said)}")
    return done.stdout


def reason_in(said):
    """The part of what apt or another program says that has the reason of a failure: what stands before and after the
    first line that names one, and the end."""
    lines = said.splitlines()
    first = next((at for at, line in enumerate(lines) if ERROR.match(line)), len(lines))
    near = range(max(0, first - 15), min(first + 15, len(lines)))
    shown = sorted({*near, *range(max(0, len(lines) - 15), len(lines))})
    return "\n".join(f"      {lines[at]}" for at in shown)


def children_of(number):
    """The processes that a process began, and those that these began."""
    parents = {}
    for stat in Path("/proc").glob("[0-9]*/stat"):
        with contextlib.suppress(OSError):
            parents[int(stat.parent.name)] = int(stat.read_text().rpartition(")")[2].split()[1])
    found = [number]
    for parent in found:
        found += [child for child, of in parents.items() if of == parent]
    return found[1:]


def end(process, *others):
    """Ends a process and others, by their numbers."""
    for number in (process.pid, *others):
        with contextlib.suppress(ProcessLookupError):
            os.kill(number, signal.SIGKILL)
    process.wait()


# ---- the copy


class System:
    """The copy. What is written goes into memory."""

    def __init__(self, folder, program):
        self.folder, self.root = folder, folder / "root"
        run(["mount", "-t", "tmpfs", "-o", "mode=755", "none", folder])
        for name in ("root", "upper", "work"):
            (folder / name).mkdir()
        layers = f"lowerdir=/,upperdir={folder}/upper,workdir={folder}/work"
        run(["mount", "-t", "overlay", "overlay", "-o", layers, self.root])
        run(["mount", "-t", "proc", "proc", self.root / "proc"])
        run(["mount", "--rbind", "/dev", self.root / "dev"])
        self.put("usr/sbin/policy-rc.d", "#!/bin/sh\nexit 101\n", 0o755)
        self.install(program)
        self.set_up()

    def put(self, name, text, mode=0o644, owner=None):
        file = self.root / name
        file.parent.mkdir(parents=True, exist_ok=True)
        file.write_text(text)
        file.chmod(mode)
        if owner:
            run(self.inside(["chown", owner, f"/{name}"]))

    def home(self, name):
        return self.root / HOME / name

    def inside(self, words, **environment):
        path = "/usr/local/sbin:/usr/local/bin:/usr/sbin:/usr/bin:/sbin:/bin"
        front = [
            "env", "-i", f"PATH={path}", "LC_ALL=C.UTF-8", *(f"{key}={value}" for key, value in environment.items()),
        ]
        return ["chroot", str(self.root), *front, *words]

    def as_user(self, user, command):
        return self.inside(["su", "-", user, "-s", "/bin/bash", "-c", command])

    def as_buildd(self, command):
        return self.as_user("buildd", command)

    def as_root(self, command):
        return self.inside(["sh", "-c", f"cd /root; {command}"])

    def by_cron(self, command):
        """A command of buildd, as cron calls it."""
        variables = f"HOME=/{HOME} LOGNAME=buildd SHELL=/bin/sh PATH=/usr/bin:/bin"
        return self.inside(["su", "buildd", "-s", "/bin/sh", "-c", f"cd; exec env -i {variables} {command}"])

    def apt(self, *words):
        run(
            self.inside(["apt-get", "-q", "-y", "-o", "Dpkg::Use-Pty=0", *words], DEBIAN_FRONTEND="noninteractive"),
            stderr=subprocess.STDOUT,  # the reason stands between what is said of the packages
        )

    def install(self, program):
        """Debian's packages by apt, and the Debian package of this repository by dpkg."""
        # no index of the pages of the manual, which takes minutes: a man-db that is there already looks at the file
        no_index = "man-db man-db/auto-update boolean false"
        run(self.inside(["sh", "-c", f"echo {no_index} | debconf-set-selections"]))
        (self.root / "var/lib/man-db/auto-update").unlink(missing_ok=True)
        self.apt("update")
        self.apt("install", "--no-install-recommends", *PACKAGES)
        said = run(self.inside(["dpkg-query", "-W", "-f", "${Package} ${Version}, ", *PACKAGES]))
        tell(f"installed: {said.strip(' ,')}")
        made = run([ROOT / "tools/dev/make-deb", "--program", program, "--into", self.root / "srv/package"]).strip()
        run(self.inside(["dpkg", "--install", "--force-depends", f"/srv/package/{Path(made).name}"]))
        tell(f"installed: {Path(made).name}, of {run([program, '--version']).strip()}")

    def set_up(self):
        """The stub of sbuild, the mail of example.org, and the users: a porter, and the builder on the office's
        machine, which is this one too."""
        self.put("usr/local/bin/sbuild", SBUILD, 0o755)
        settings = "etc/exim4/update-exim4.conf.conf"
        text = re.sub("(?m)^dc_other_hostnames=.*$", "dc_other_hostnames='example.org:b1.example.org'",
                      (self.root / settings).read_text())
        self.put(settings, text)
        self.put("etc/mailname", "b1.example.org\n")
        run(self.inside(["update-exim4.conf"]))
        for user in ("porter", "b1"):
            run(self.inside(["useradd", "--create-home", "--shell", "/bin/sh", user]))
            run(self.inside(["usermod", "-p", "*", user]))  # without PAM sshd refuses an account that is locked
        (self.root / "srv/incoming").mkdir(mode=0o777)
        (self.root / "srv/incoming").chmod(0o777)
        (self.root / "run/sshd").mkdir(exist_ok=True)
        self.dupload = (self.root / "etc/dupload.conf").read_text()
        self.office = (self.root / "etc/wb/office.conf").read_text()

    def clear(self):
        """Takes away what a trial left in the homes and the mailboxes."""
        run(self.as_buildd(
            "rm -rf build/* upload/* go *.key wanna-build.* .wanna-build.* sbuild-* daemon.log REDO stats/* .ssh/*"
        ))
        run(self.as_user("b1", "rm -rf *.key wanna-build.* .wanna-build.* .ssh"))
        for file in [*(self.root / "srv/incoming").iterdir(), *(self.root / "var/mail").iterdir()]:
            file.unlink()

    # -- mail

    def mails(self, user):
        """The mails in the mailbox of a user."""
        with contextlib.closing(mailbox.mbox(self.root / "var/mail" / user, create=False)) as box:
            return [email.message_from_bytes(bytes(mail)) for mail in box]

    def log_of(self, package):
        """The mail of the last log of a package that the porter has; nothing if there is none."""
        with contextlib.suppress(mailbox.NoSuchMailboxError):
            logs = [mail for mail in self.mails("porter") if mail["Subject"].startswith("Log for ")]
            found = [mail for mail in logs if f" build of {package} on " in mail["Subject"]]
            return found[-1] if found else None
        return None

    def answer(self, package, text):
        """The porter answers the mail of a log, as a program for mail does: to whom it is from."""
        log = wait_for(lambda: self.log_of(package), f"the porter has no log of {package}")
        mail = f"From: porter@example.org\nTo: {log['From']}\nSubject: Re: {log['Subject']}\n\n{text}"
        run(self.as_user("porter", "/usr/sbin/sendmail -oi -t"), stdin=None, input=mail)
        return log["From"]


# ---- ssh


class Sshd:
    """The sshd of the office's machine, which knows one key of buildd."""

    def __init__(self, system, is_forced, office_port):
        self.system, self.port, self.process = system, free_port(), None
        system.put(f"{HOME}/.ssh/config", f"Host {OFFICE}\nHostName 127.0.0.1\nPort {self.port}\n", 0o600, "buildd")
        run(system.as_buildd("ssh-keygen -q -t ed25519 -N '' -f ~/.ssh/id_ed25519"))
        key = (system.home(".ssh/id_ed25519.pub")).read_text()
        run(system.as_user("b1", "mkdir -m 700 .ssh"))
        system.put("home/b1/.ssh/authorized_keys", line_of_key(is_forced, office_port, key), 0o600, "b1")
        self.start()
        self.accept_key()

    def start(self):
        words = ["-D", "-e", "-p", str(self.port), "-o", "ListenAddress=127.0.0.1", "-o", "UsePAM=no"]
        self.process = subprocess.Popen(
            self.system.inside(["/usr/sbin/sshd", *words]), stdin=subprocess.DEVNULL, stderr=subprocess.DEVNULL
        )
        wait_for(self.listens, "sshd does not start")

    def listens(self):
        with contextlib.suppress(OSError), socket.create_connection(("127.0.0.1", self.port), timeout=1) as link:
            return bool(link.recv(4))
        return False

    def accept_key(self):
        """The user buildd accepts the host's key: he is refused the command, and not by ssh."""
        command = accepting_command().replace("ssh ", "ssh -o StrictHostKeyChecking=accept-new ", 1)
        done = subprocess.run(
            self.system.as_buildd(command), stdin=subprocess.DEVNULL, capture_output=True, text=True, check=False
        )
        expect(done.returncode in (1, 2), f"{command} ends with {done.returncode}: {done.stderr}")

    def stop(self):
        """The link is down: nothing listens, and all connections are gone."""
        if self.process:
            end(self.process, *children_of(self.process.pid))
            self.process = None

    def refuse(self):
        """No link can be made any more; those that there are stay."""
        end(self.process)
        self.process = None

    def hang(self):
        """The links that there are hang: what is sent by them is not answered any more."""
        for number in children_of(self.process.pid):
            with contextlib.suppress(ProcessLookupError):
                os.kill(number, signal.SIGSTOP)

    def pause(self):
        """New links hang, too."""
        os.kill(self.process.pid, signal.SIGSTOP)

    def go_on(self):
        os.kill(self.process.pid, signal.SIGCONT)


class Tunnel:
    """The tunnel of the page's unit, which is made anew, as systemd does, whenever it has ended."""

    def __init__(self, system, office_port):
        self.system, self.port, self.process, self.is_wanted = system, free_port(), None, True
        self.command = tunnel_command(self.port, office_port)
        self.keeper = threading.Thread(target=self.keep, daemon=True)
        self.keeper.start()

    def keep(self):
        while self.is_wanted:
            self.process = subprocess.Popen(
                self.system.as_buildd(f"exec {self.command}"), stdin=subprocess.DEVNULL, stderr=subprocess.DEVNULL
            )
            self.process.wait()
            time.sleep(1)

    def stop(self):
        self.is_wanted = False
        if self.process:
            end(self.process, *children_of(self.process.pid))
        self.keeper.join()
