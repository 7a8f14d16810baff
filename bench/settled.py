"""A small image, and what the next command finds in it: for bench/memory-faults and bench/call-faults.

A case is one command on files of its own. It is run once undisturbed, which shows the files after it; then
with a fault at one place after another. Each time the next command runs, and the tables then have to be
those before or those after, whole, with their modes and owners, as the told stage says: those after where
the status is 0 or the fault is told after the commit, either of them where it is told in the commit, and
else those before. Nothing of a session may be left, and one lock, which is free.
"""
import os
import shutil
import subprocess
import tempfile
from collections import Counter

TABLES = ("passwd", "shadow", "group", "gshadow", "subuid", "subgid")
EMPTY = {"passwd": b"", "group": b""}
SMALL = {
    "passwd": b"root:x:0:0:root:/root:/bin/bash\nbob:x:1000:1000:Bob,,,:/home/bob:/bin/bash\n",
    "shadow": b"root:*:19700:0:99999:7:::\nbob:$y$hash:19800:0:99999:7:::\n",
    "group": b"root:x:0:\nsudo:x:27:bob\nusers:x:100:\nbob:x:1000:\n",
    "gshadow": b"root:*::\nsudo:*::bob\nusers:*::\nbob:!::\n",
    "subuid": b"bob:100000:65536\n",
    "subgid": b"bob:100000:65536\n",
    "login.defs": b"UID_MIN 1000\nUID_MAX 60000\nUSERGROUPS_ENAB yes\n",
}
# Modes and groups other than those of the rest.
OWNED = {"shadow": (0o640, 42), "gshadow": (0o640, 42)}
USERADD = ("useradd", "-c", "Ann Lee", "-G", "sudo", "ann")


class Case:
    """A command, the program, and the files before and after it, in a folder of its own."""

    def __init__(self, program, files, words, first=None, is_committed=False):
        """`first` changes the files by another command. Where it leaves them with a committed change, that
        is to stand whatever happens."""
        self.program, self.words = program, words
        self.work = tempfile.mkdtemp()
        self.fresh, self.image = os.path.join(self.work, "fresh"), os.path.join(self.work, "image")
        make(self.fresh, files)
        if first:
            first(self)
        self.renew()
        self.run(())
        self.settle()
        self.after = tables(self.image)
        self.before = self.after if is_committed else tables(self.fresh)

    def renew(self):
        shutil.rmtree(self.image, ignore_errors=True)
        subprocess.run(["cp", "-a", self.fresh, self.image], check=True)

    def run(self, wrapper, folder=None, words=None, **others):
        """Runs the command, as an argument of the wrapper, and gives its status and message."""
        tool, *rest = words or self.words
        line = [*wrapper, self.program, tool, "-P", folder or self.image, *rest]
        ended = subprocess.run(line, capture_output=True, timeout=60, **others)
        return ended.returncode, ended.stderr

    def settle(self):
        """The next command: it takes the lock, finishes what was committed, and is refused with status 6, as no
        group has an empty name."""
        return self.run((), words=("groupdel", "--", ""))[0] == 6

    def judged(self, status, message):
        """`old` or `new`, as the tables are once the next command ran, or what is wrong."""
        if not self.settle():
            return "refused"
        now = tables(self.image)
        state = "new" if now == self.after else "old" if now == self.before else "mixed"
        if b"it isn't known" in message:
            wanted = ("old", "new")
        elif status == 0 or b"the change was made" in message:
            wanted = ("new",)
        else:
            wanted = ("old", "new") if self.before == self.after else ("old",)
        if state not in wanted:
            return f"{state} at status {status}"
        names = os.listdir(os.path.join(self.image, "etc"))
        locks = [name for name in names if name.startswith("accounts.lock.")]
        if len(locks) != 1 or text(self.image, locks[0]) != b"free\n":
            return "a lock is left"
        if any(name == "accounts.intent" or name.startswith("accounts.held+") for name in names):
            return "a file is left"
        return state

    def end(self):
        shutil.rmtree(self.work)


def make(folder, files):
    os.makedirs(os.path.join(folder, "etc"))
    for name, held in files.items():
        path = os.path.join(folder, "etc", name)
        with open(path, "wb") as file:
            file.write(held)
        mode, group = OWNED.get(name, (0o644, 0))
        os.chown(path, 0, group)
        os.chmod(path, mode)


def text(folder, name):
    with open(os.path.join(folder, "etc", name), "rb") as file:
        return file.read()


def tables(folder):
    """Each table that stands, with its mode and its group."""
    found = {}
    for name in TABLES:
        path = os.path.join(folder, "etc", name)
        if os.path.exists(path):
            about = os.stat(path)
            found[name] = (text(folder, name), about.st_mode, about.st_gid)
    return found


def counted(words):
    """The words with their numbers, as `12 old, 288 new`."""
    return ", ".join(f"{count} {word}" for word, count in sorted(Counter(words).items()))
