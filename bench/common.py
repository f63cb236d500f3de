"""What the measuring scripts share. It needs a C compiler for what starts a measured command, and ends where the memory that it shows isn't
that of the measured program alone."""

import atexit
import collections
import ctypes
import functools
import json
import os
import resource
import shutil
import subprocess
import sys
import tempfile

PROGRAM = "crates/sling_dispatch/out/sling_dispatch"
LOADS = "import json, sys; json.loads(sys.stdin.buffer.read())"
JSON_KIND = "application/json;charset=utf-8"
HTML_KIND = "text/html;charset=utf-8"

# Starts a command and waits for it. The peak memory of a process counts the pages that it had before it became the command, and
# those are a copy of its parent's: here a few, where Python as the parent would have hundreds of MB.
STARTER = r"""
#include <stdio.h>
#include <sys/resource.h>
#include <sys/wait.h>
#include <unistd.h>
static double seconds(struct timeval t) { return t.tv_sec + t.tv_usec / 1e6; }
int main(int count, char **words) {
    struct rusage used;
    int status;
    if (count < 3) return 1;
    FILE *out = fopen(words[1], "w");
    if (!out) return 1;
    pid_t child = fork();
    if (child == 0) {
        execvp(words[2], words + 2);
        _exit(127);
    }
    if (child < 0 || wait4(child, &status, 0, &used) != child) return 1;
    fprintf(out, "%d %f %ld\n", status, seconds(used.ru_utime) + seconds(used.ru_stime), used.ru_maxrss);
    return fclose(out) != 0;
}
"""

# Processor time in seconds and peak memory in MB.
Run = collections.namedtuple("Run", "seconds memory")


@functools.cache
def starter():
    """The built starter, and the file that it writes to."""
    folder = tempfile.mkdtemp()
    atexit.register(shutil.rmtree, folder)
    source, built = os.path.join(folder, "starter.c"), os.path.join(folder, "starter")
    with open(source, "w") as out:
        out.write(STARTER)
    subprocess.run(["cc", "-O1", "-o", built, source], check=True)
    return built, os.path.join(folder, "run")


def measured(command, given):
    """A run of a command over this input."""
    built, said = starter()
    with tempfile.TemporaryFile() as source:
        source.write(given)
        source.seek(0)
        subprocess.run([built, said, *command], stdin=source, stdout=subprocess.DEVNULL, check=True)
    with open(said) as lines:
        status, seconds, kilobytes = lines.read().split()
    ended = os.waitstatus_to_exitcode(int(status))
    if ended != 0:
        sys.exit(f"{command[0]} ended with {ended}")
    return Run(float(seconds), int(kilobytes) / 1024)


def best(command, given, times=3):
    """The least time and the greatest memory of some runs."""
    runs = [measured(command, given) for _ in range(times)]
    return Run(min(run.seconds for run in runs), max(run.memory for run in runs))


def prepare(program=None):
    """Ends where the program isn't there, or where the memory that is measured isn't the command's own: /bin/true has a MB or two,
    whatever this process holds."""
    resource.setrlimit(resource.RLIMIT_CORE, (0, 0))
    if program is not None and not os.path.exists(program):
        sys.exit(f"{program} is not there: build it first")
    held = b"x" * 100_000_000
    shown = measured(["/bin/true"], b"").memory
    if shown > 4:
        sys.exit(f"the memory measured isn't the command's own: {shown:.0f} MB of /bin/true, where this script holds {len(held) / 1e6:.0f} MB")
    print(f"memory of /bin/true {shown:.1f} MB")


def content(nodes, filler):
    """A tree of about so many nodes, 190 pages to a section, with two texts to a page, as JSON."""
    sections = {}
    left = nodes - 2
    while left > 0:
        number = len(sections)
        pages = {f"p{page}": {"jcr:title": f"Page {number} {page}", "text": filler} for page in range(min(left, 190))}
        left -= len(pages) + 1
        sections[f"s{number}"] = pages
    return json.dumps({"content": sections}, separators=(",", ":"))


def scenario(text, targets):
    """Direct requests of these targets on the content that has this text."""
    lines = ["scenario 1", "content", text, "."]
    lines += [f"direct {target}" for target in targets]
    return ("\n".join(lines + ["end"]) + "\n").encode()


def transcript(kind, bodies):
    """What a scenario writes whose answers have this media type and these bodies, which are of ASCII."""
    quoted = (body.replace("\\", "\\\\").replace('"', '\\"').replace("\n", "\\n") for body in bodies)
    return "".join(f'@ {number}\nanswer 200 "{kind}" - - "{body}"\n' for number, body in enumerate(quoted, 1)).encode()


def check_answers(text, targets, kind, bodies):
    """Ends where the program's answers aren't these."""
    written = subprocess.run([PROGRAM, "replay"], input=scenario(text, targets), capture_output=True, check=True).stdout
    if written != transcript(kind, bodies):
        sys.exit(f"the two answer differently, from {targets[0]} on")


def by_jinja2(script, given):
    """What a script of Python that reads and writes JSON says of this, by a Python that has jinja2."""
    for python in (sys.executable, "/usr/bin/python3"):
        if subprocess.run([python, "-c", "import jinja2"], stderr=subprocess.DEVNULL).returncode == 0:
            run = subprocess.run([python, "-c", script], input=json.dumps(given), stdout=subprocess.PIPE, text=True, check=True)
            return json.loads(run.stdout)
    sys.exit("no Python here has jinja2: it is Debian's package python3-jinja2")


def growth(title, counts, time_per_one):
    """Prints the time per one for each count, and the greatest to the least."""
    print(title)
    each = [time_per_one(count) for count in counts]
    for count, seconds in zip(counts, each):
        print(f"  {count:7} {seconds * 1e6:8.2f} us")
    least = min(each)
    print(f"  greatest to least {max(each) / least:.2f}" if least > 0 else "  the least is less than can be told")


PLACE = os.path.abspath("out/bench")


def lines_below(wanted):
    """The lines of crates.txt that these crates need, each after those that it stands on."""
    below = {}
    with open("crates.txt") as lines:
        for line in lines:
            name, colon, needed = line.partition("#")[0].partition(":")
            if colon:
                below[name.strip()] = needed.split()
    found = {}

    def add(name):
        if name in below and name not in found:
            for other in below[name]:
                add(other)
            found[name] = f"{name}: {' '.join(below[name])}\n"

    for name in wanted:
        add(name)
    return found


def build(program, wanted, words=(), given=b""):
    """Copies the crates that a program of bench/ stands on, with what they keep of their proofs, puts it beside them, builds it and
    runs it once. Its path."""
    found = lines_below(wanted)
    folder = f"{PLACE}/crates/{program}"
    shutil.rmtree(PLACE, ignore_errors=True)
    os.makedirs(f"{folder}/src")
    for crate in found:
        shutil.copytree(f"crates/{crate}", f"{PLACE}/crates/{crate}")
    shutil.copy(f"bench/{program}/main.rt.in", f"{folder}/src/main.rt")
    with open(f"{PLACE}/crates.txt", "w") as out:
        out.writelines([*found.values(), f"{program}: {' '.join(wanted)}\n"])
    subprocess.run(["rt", "run", "--", *words], cwd=folder, input=given, check=True, stdout=subprocess.DEVNULL)
    return f"{folder}/out/{program}"


PAGES_PROGRAM = f"{PLACE}/crates/pages_program/out/pages_program"


def build_pages_program():
    build("pages_program", ["sp_base", "sp_outside"], ["list", "0", "1"])


def own_network():
    """A network of this process's own, with 127.0.0.1 alone, so that a port that others listen at is free; where that isn't allowed, nothing
    changes."""
    new_network = 0x40000000
    if ctypes.CDLL(None, use_errno=True).unshare(new_network) == 0:
        subprocess.run(["ip", "link", "set", "lo", "up"], check=True)


def own_mounts():
    """Mounts of this process's own."""
    new_mounts = 0x20000
    if ctypes.CDLL(None, use_errno=True).unshare(new_mounts) != 0:
        sys.exit("mounts of its own aren't allowed: run it as root")
    subprocess.run(["mount", "--make-rprivate", "/"], check=True)


class Violations(list):
    """What isn't as it should be. The first are printed as they come."""

    MOST_SHOWN = 20

    def append(self, found):
        super().append(found)
        if len(self) <= self.MOST_SHOWN:
            print(f"  {found}", flush=True)

    def extend(self, found):
        for one in found:
            self.append(one)
