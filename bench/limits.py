"""What the system may deny a server that runs, one of it at a time: descriptors, room on the disk, the right to write, its files, a clock that
only goes on. A limit stands round a server's life; it is imposed while the server runs, and lifted before it is started again."""

import contextlib
import os
import resource
import shutil
import socket
import subprocess
import time

from common import own_mounts

NOBODY = 65534
DISK_SIZE = "2m"
DESCRIPTORS = 64
CROWD = 80
PATIENCE = 5
# What a server may answer in the place of what was asked, where it can't open files or write them.
REFUSALS = (500, 503, 507)

# Both clocks go back by an hour at each hundredth look. They begin late enough for that.
CLOCKS = r"""
#define _GNU_SOURCE
#include <sys/syscall.h>
#include <time.h>
#include <unistd.h>
int clock_gettime(clockid_t clock, struct timespec *now) {
    static long looks;
    long result = syscall(SYS_clock_gettime, clock, now);
    now->tv_sec += 1000000000 - looks++ / 100 * 3600;
    return result;
}
"""


class Limit:
    """One that denies nothing."""

    # What may be answered in the place of what was asked.
    refusals = ()

    def __init__(self, server):
        self.server, self.docroot = server, f"{server.folder}/docroot"

    def begin(self):
        """Before the server is started for the first time."""

    def impose(self):
        """While it runs."""

    def lift(self):
        """Before it is started again, and before others look at its files."""

    def end(self):
        """After it was stopped for the last time."""


class Descriptors(Limit):
    """64 descriptors, which clients take that say nothing."""

    refusals = REFUSALS

    def __init__(self, server):
        super().__init__(server)
        self.crowd = []

    def impose(self):
        resource.prlimit(self.server.process.pid, resource.RLIMIT_NOFILE, (DESCRIPTORS, DESCRIPTORS))
        with contextlib.suppress(OSError):
            while len(self.crowd) < CROWD:
                self.crowd.append(socket.create_connection(("127.0.0.1", self.server.port), PATIENCE))

    def lift(self):
        for client in self.crowd:
            client.close()
        self.crowd.clear()


class FewDescriptors(Descriptors):
    """64 descriptors, of which clients take what they need."""

    def impose(self):
        resource.prlimit(self.server.process.pid, resource.RLIMIT_NOFILE, (DESCRIPTORS, DESCRIPTORS))


class Disk(Limit):
    """One whose docroot is on a small disk of its own, beside which others may write."""

    refusals = REFUSALS

    def __init__(self, server):
        super().__init__(server)
        self.disk = f"{server.folder}/disk"

    def begin(self):
        own_mounts()
        os.makedirs(self.disk, exist_ok=True)
        subprocess.run(["mount", "-t", "tmpfs", "-o", f"size={DISK_SIZE}", "none", self.disk], check=True)
        os.mkdir(f"{self.disk}/docroot")
        shutil.rmtree(self.docroot, ignore_errors=True)
        os.symlink("disk/docroot", self.docroot)

    def end(self):
        # While it is busy this is tried again, so the link goes last.
        subprocess.run(["umount", self.disk], check=True)
        os.remove(self.docroot)


class FullDisk(Disk):
    """A disk without room."""

    def impose(self):
        with contextlib.suppress(OSError), open(f"{self.disk}/fill", "ab", buffering=0) as out:
            while out.write(b"x" * 4096):
                pass

    def lift(self):
        with contextlib.suppress(FileNotFoundError):
            os.remove(f"{self.disk}/fill")


class ReadOnly(Disk):
    """Folders in which nothing may be written: the server is run as a user who may, and then may not."""

    def begin(self):
        super().begin()
        self.server.before = ["setpriv", f"--reuid={NOBODY}", "--clear-groups"]
        os.chmod(os.path.dirname(self.server.folder), 0o755)
        self.lift()

    def impose(self):
        self.give(0, 0o555)

    def lift(self):
        self.give(NOBODY, 0o755)

    def give(self, user, mode):
        for folder, _, _ in os.walk(f"{self.disk}/docroot"):
            with contextlib.suppress(FileNotFoundError):
                os.chown(folder, user, -1)
                os.chmod(folder, mode)

    def end(self):
        self.server.before = []
        super().end()


class Removed(Limit):
    """Files that are taken away from under the server, by the shell's words for all that doesn't begin with a dot."""

    WHAT = "docroot/*"

    def impose(self):
        subprocess.run(["bash", "-c", f"rm -rf {self.WHAT}"], cwd=self.server.folder, stderr=subprocess.DEVNULL)


class FolderRemoved(Removed):
    """The folder itself is taken away."""

    WHAT = "docroot"


class Clock(Limit):
    """Clocks that go back again and again, from the start on."""

    def begin(self):
        source, self.shim = f"{self.server.folder}/clocks.c", f"{self.server.folder}/clocks.so"
        with open(source, "w") as out:
            out.write(CLOCKS)
        subprocess.run(["cc", "-shared", "-fPIC", "-o", self.shim, source], check=True)
        self.server.before = ["env", f"LD_PRELOAD={self.shim}"]

    def impose(self):
        with open(f"/proc/{self.server.process.pid}/maps") as maps:
            if self.shim not in maps.read():
                raise AssertionError("the clocks are the system's")

    def end(self):
        self.server.before = []


LIMITS = {"none": Limit, "descriptors": Descriptors, "full": FullDisk, "readonly": ReadOnly, "removed": Removed, "clock": Clock}


def add_word(words):
    """The word that names one."""
    words.add_argument("--limit", choices=LIMITS, default="none", help="what the system denies the server while it runs")


@contextlib.contextmanager
def under(kind, server):
    """A limit round a server's life. The server has to be stopped within."""
    limit = kind(server)
    limit.begin()
    try:
        yield limit
    finally:
        limit.lift()
        for _ in range(100):
            # A process that was just stopped may hold a file for a moment.
            with contextlib.suppress(subprocess.CalledProcessError, OSError):
                limit.end()
                break
            time.sleep(0.05)
