"""Runs the built program while memory, files and devices fail, and sees that it ends as it has to.

    python3 reference/faults.py [--program PATH] [--all] [--case GROUP/NAME ..] [PART ..]

The parts are `memory`, `calls`, `devices` and `changes`, all four where none is named, and `sizes`, which takes some minutes, 3 GB of memory and 2 GB
of disk. They are for Linux, and `memory` and `calls` take a C compiler, `cc`: a small library of C is loaded in front of the C library, counts what
the program asks of it, and refuses what it is told to.

- `memory`: each request for memory of a call is refused, alone and with all later ones. The code is 14, or all is as it is undisturbed.
- `calls`: each call of the system that opens, reads, writes, syncs, renames or closes a file fails, with each of some errors, is interrupted, or moves
  one byte alone. A call that moves fewer bytes or was interrupted changes nothing; after another one the code is 12 or 13.
- `devices`: a full device, a full disk, folders without permission, a folder in place of a file, a closed pipe, a closed standard output.
- `changes`: a frame that is replaced or written over while it is read.
- `sizes`: 100,000 columns, a line of 100 MB, a frame at the limit of a file's size and one byte past it.

The calls are those of some cases of crates/cases/data, of those that `--case` names, or with `--all` of every case in which all calls and puts
succeed. After each run the inputs have to stand as they were; each output is the old file or the whole new one, and a later output is new only where
the earlier ones are; no other file is there; and what was put is a front part of what is put undisturbed. What isn't so is put, and the exit code
is 1.
"""
import argparse
import collections
import errno
import os
import shutil
import signal
import subprocess
import sys
import tempfile
import threading

sys.dont_write_bytecode = True
import run_cases
import sampler

HERE = os.path.dirname(os.path.abspath(__file__))
PROGRAM = os.path.join(HERE, "..", "crates", "sampler", "out", "sampler")
MOST_SECONDS = 60
SEED = "1" * 64
CASES = """
    quick/two_of_four probs/in_proportion_to_size check/accepted demo/least
    draw/pivotal draw/pivotal_random_order draw/systematic_draw_1 draw/minimum_support draw/brewer_spent draw/local_pivotal_tie
    cube/wide cube/dropped_row_draw_1 strata/cube strata/allocation stages/villages stages/cube_in_strata
    draw/elimination local_cube/wide stratified_cube/wide stratified_cube/dropped_row joint/two_strata migrate/two_strata
    seed/zeros seed/cube replay/genuine replay/strata replay/another_value outside/files_are_replaced
    refused_frame/repeated_id refused_tape/too_short stages/misfit_5_second_too_many strata/stratified_cube_16_strata
""".split()

# What stands in front of the C library. FAULT_KIND names what is counted, FAULT_PLACE the one that fails, counted from 1, FAULT_LATER whether all
# later ones fail too, and FAULT_ERROR the error, or 0 for a call that moves one byte alone. The count is written to the file FAULT_TOLD at the end.
LIBRARY = r"""
#define _GNU_SOURCE
#include <errno.h>
#include <fcntl.h>
#include <stdarg.h>
#include <stdlib.h>
#include <string.h>
#include <sys/stat.h>
#include <sys/syscall.h>
#include <unistd.h>

void *__libc_malloc(size_t);
void *__libc_realloc(void *, size_t);

static const char *kind = "";
static long place, later, error, count;

__attribute__((constructor)) static void start(void) {
    const char *word;
    if ((word = getenv("FAULT_PLACE"))) place = atol(word);
    if ((word = getenv("FAULT_LATER"))) later = atol(word);
    if ((word = getenv("FAULT_ERROR"))) error = atol(word);
    if ((word = getenv("FAULT_KIND"))) kind = word;
}

__attribute__((destructor)) static void end(void) {
    char digits[24];
    int at = sizeof digits;
    const char *name = getenv("FAULT_TOLD");
    long file = name ? syscall(SYS_openat, AT_FDCWD, name, O_WRONLY | O_CREAT | O_TRUNC, 0600) : -1;
    do digits[--at] = '0' + count % 10; while (count /= 10);
    if (file >= 0) syscall(SYS_write, file, digits + at, sizeof digits - at);
}

static int is_due(const char *name) {
    if (strcmp(kind, name)) return 0;
    count++;
    return count == place || (later && place && count > place);
}

static long failed(void) { errno = (int)error; return -1; }

void *malloc(size_t size) {
    if (is_due("memory")) { errno = ENOMEM; return 0; }
    return __libc_malloc(size);
}

void *realloc(void *old, size_t size) {
    if (is_due("memory")) { errno = ENOMEM; return 0; }
    return __libc_realloc(old, size);
}

static int opened(int folder, const char *name, int flags, int mode) {
    return is_due("open") ? failed() : syscall(SYS_openat, folder, name, flags, mode);
}

#define MODE(flags) \
    int mode = 0; \
    if (flags & (O_CREAT | __O_TMPFILE)) { va_list rest; va_start(rest, flags); mode = va_arg(rest, int); va_end(rest); }

int open(const char *name, int flags, ...) { MODE(flags) return opened(AT_FDCWD, name, flags, mode); }
int open64(const char *name, int flags, ...) { MODE(flags) return opened(AT_FDCWD, name, flags, mode); }
int openat(int folder, const char *name, int flags, ...) { MODE(flags) return opened(folder, name, flags, mode); }

ssize_t read(int file, void *to, size_t size) {
    if (is_due("read")) { if (error) return failed(); if (size > 1) size = 1; }
    return syscall(SYS_read, file, to, size);
}

ssize_t write(int file, const void *from, size_t size) {
    if (is_due("write")) { if (error) return failed(); if (size > 1) size = 1; }
    return syscall(SYS_write, file, from, size);
}
ssize_t __write(int file, const void *from, size_t size) { return write(file, from, size); }
ssize_t __read(int file, void *to, size_t size) { return read(file, to, size); }

int rename(const char *from, const char *to) { return is_due("rename") ? failed() : syscall(SYS_rename, from, to); }
int fsync(int file) { return is_due("fsync") ? failed() : syscall(SYS_fsync, file); }
int fdatasync(int file) { return is_due("fsync") ? failed() : syscall(SYS_fdatasync, file); }
int fchmod(int file, mode_t mode) { return is_due("fchmod") ? failed() : syscall(SYS_fchmod, file, mode); }
int statx(int folder, const char *name, int flags, unsigned mask, struct statx *to) {
    return is_due("statx") ? failed() : syscall(SYS_statx, folder, name, flags, mask, to);
}
int close(int file) {
    long done = syscall(SYS_close, file);
    return is_due("close") ? failed() : done;
}
"""

# The calls that may fail, the errors that each fails with, and the codes that may come then; none where nothing may change.
ONE_BYTE, INTERRUPTED = 0, errno.EINTR
CALLS = {
    "open": ((errno.EACCES, errno.EMFILE, errno.ENFILE, errno.EIO, errno.ENOMEM), (12, 13)),
    "read": ((errno.EIO, errno.EISDIR, errno.EBADF), (12,)),
    "write": ((errno.ENOSPC, errno.EIO, errno.EDQUOT, errno.EFBIG), (13,)),
    "rename": ((errno.EACCES, errno.EXDEV, errno.EIO), (13,)),
    "fsync": ((errno.EIO, errno.ENOSPC), (13,)),
    "fchmod": ((errno.EPERM,), (13,)),
    "statx": ((errno.EACCES, errno.EIO), (13,)),
    "close": ((errno.EIO,), ()),
}
HARMLESS = {"read": (ONE_BYTE, INTERRUPTED), "write": (ONE_BYTE, INTERRUPTED)}

Ended = collections.namedtuple("Ended", "code put files")


class Report:
    """What was seen: how often each thing ended with each code, and what isn't as it has to be."""

    def __init__(self):
        self.seen, self.wrong = {}, 0

    def note(self, what, code):
        self.seen.setdefault(what, collections.Counter())[code] += 1

    def fault(self, text):
        self.wrong += 1
        print(f"WRONG: {text}")

    def tell(self):
        for what, codes in self.seen.items():
            print(f"{what}: {sum(codes.values())} runs, " + ", ".join(f"code {code} {times}" for code, times in sorted(codes.items())))
        self.seen.clear()


def outputs_of(words):
    """The names of the files that a call writes, in the order of writing."""
    try:
        command, given = sampler.read_words(words)
    except sampler.Refusal:
        return []
    written = {"quick": ("out",), "draw": ("log", "sample"), "replay": ("sample",), "migrate": ("to",)}
    return [given[name] for name in written.get(command, ())]


def stood(folder):
    """The files of a folder, by their names."""
    files = {}
    for name in sorted(os.listdir(folder)):
        with open(os.path.join(folder, name), "rb") as opened:
            files[name] = opened.read()
    return files


class Runner:
    """The program, with what stands in front of the C library."""

    def __init__(self, program, library, work):
        self.program, self.library, self.work = os.path.abspath(program), library, work
        self.folder, self.told = os.path.join(work, "folder"), os.path.join(work, "told")

    def run(self, words, files, **fault):
        """One run over new files."""
        shutil.rmtree(self.folder, ignore_errors=True)
        os.mkdir(self.folder)
        for name, content in files.items():
            with open(os.path.join(self.folder, name), "wb") as opened:
                opened.write(content)
        set_up = dict(os.environ)
        if fault:
            set_up.update({"LD_PRELOAD": self.library, "FAULT_TOLD": self.told}, **{f"FAULT_{name}": str(value) for name, value in fault.items()})
        ended = subprocess.run([self.program, *words[1:]], cwd=self.folder, env=set_up, stdin=subprocess.DEVNULL, stdout=subprocess.PIPE,
                               stderr=subprocess.PIPE, timeout=MOST_SECONDS)
        assert ended.stderr == b"", ended.stderr
        return Ended(ended.returncode, ended.stdout, stood(self.folder))

    def count(self, words, files, kind):
        """How many calls of a kind there are in an undisturbed run."""
        self.run(words, files, KIND=kind, PLACE=0)
        with open(self.told) as opened:
            return int(opened.read())


def faults_of(words, files, whole, ended, codes):
    """What isn't as it has to be after a run that ended with a fault, where it has to end with one of these codes."""
    found = []
    if ended.code not in codes:
        found.append(f"code {ended.code}")
    if not whole.put.startswith(ended.put) and ended.code != 14:
        found.append(f"put {ended.put!r}")
    outputs = outputs_of(words)
    for name in sorted(set(files) | set(ended.files)):
        if name not in outputs and ended.files.get(name) != files.get(name):
            found.append(f"file {name} is another")
    is_new = [ended.files.get(name) == whole.files.get(name) for name in outputs]
    for place, name in enumerate(outputs):
        if not is_new[place] and ended.files.get(name) != files.get(name):
            found.append(f"output {name} is neither the old nor the new one")
        if is_new[place] and not all(is_new[:place]) and ended.files.get(name) != files.get(name):
            found.append(f"output {name} is new before an earlier one")
    return found


def cases(chosen):
    """The calls that are run: of each case its name, words and files."""
    names = chosen.case or CASES
    if chosen.all:
        groups = sorted(name for name in os.listdir(run_cases.DATA) if os.path.isdir(os.path.join(run_cases.DATA, name)))
        names = [f"{group}/{file.removesuffix('.txt')}" for group in groups if group != "not_read"
                 for file in sorted(os.listdir(os.path.join(run_cases.DATA, group)))]
    for name in names:
        with open(os.path.join(run_cases.DATA, name + ".txt"), "rb") as opened:
            case = run_cases.Case(opened.read())
        # A name with a folder in it can't be made by this program.
        if not case.calls and not case.puts and all("/" not in file for file in case.files):
            yield name, case.words, case.files


def refuse_memory(runner, chosen, report):
    """Each request for memory is refused, alone and with all later ones."""
    requests = 0
    for name, words, files in cases(chosen):
        whole = runner.run(words, files)
        times = runner.count(words, files, "memory")
        requests += times
        for place in range(1, times + 1):
            for later in (0, 1):
                ended = runner.run(words, files, KIND="memory", PLACE=place, LATER=later)
                report.note("memory", ended.code)
                found = [] if ended == whole else faults_of(words, files, whole, ended, (14,))
                for fault in found:
                    report.fault(f"{name}, request {place} of {times} refused{' with all later ones' if later else ''}: {fault}")
        print(f"memory: {name}, {times} requests")
    print(f"memory: {requests} requests, each refused alone and with all later ones")


def refuse_calls(runner, chosen, report):
    """Each call of the system fails, is interrupted, or moves one byte alone."""
    for name, words, files in cases(chosen):
        whole = runner.run(words, files)
        for kind, (errors, codes) in CALLS.items():
            times = runner.count(words, files, kind)
            for place in range(1, times + 1):
                for error in errors + HARMLESS.get(kind, ()):
                    ended = runner.run(words, files, KIND=kind, PLACE=place, ERROR=error)
                    harmless = not codes or error in HARMLESS.get(kind, ())
                    report.note(f"{kind}, {'one byte' if error == ONE_BYTE else errno.errorcode[error]}", ended.code)
                    if harmless and ended == whole:
                        continue
                    # A fault line that isn't put leaves the code of the fault.
                    may = () if harmless else (14,) if error == errno.ENOMEM else codes + ((whole.code,) if kind == "write" and whole.code else ())
                    for fault in faults_of(words, files, whole, ended, may + ((12, 13) if error == errno.ENOMEM else ())):
                        report.fault(f"{name}, {kind} {place} of {times} fails with {error}: {fault}")


# ---- by hand: devices

FRAME = b"id,size\na,1\nb,2\nc,3\nd,4\n"
DESIGN = b'version = 1\nmethod = "pivotal"\nid = "id"\nsize = "size"\nn = 2\n'
TAPE = b"0\n3\n4\n"
FILES = {"design": DESIGN, "frame": FRAME, "tape": TAPE}


def draw(**names):
    """The words of a draw, with other names of its files where they are given."""
    options = {"design": "design", "frame": "frame", "tape": "tape", "log": "log", "sample": "sample", **names}
    return ["draw"] + [word for name, file in options.items() for word in ("--" + name, file)]


def prepared(folder):
    os.makedirs(folder, exist_ok=True)
    for name, content in FILES.items():
        with open(os.path.join(folder, name), "wb") as opened:
            opened.write(content)
    return folder


def expect(report, what, code, wanted, kept=True):
    report.note(what, code)
    if code not in wanted:
        report.fault(f"{what}: code {code}")
    if not kept:
        report.fault(f"{what}: a file isn't as it was")


def code_of(runner, words, folder, **how):
    how = {"stdin": subprocess.DEVNULL, "stdout": subprocess.DEVNULL, "stderr": subprocess.DEVNULL, **how}
    return subprocess.run([runner.program, *words], cwd=folder, timeout=MOST_SECONDS, **how).returncode


def devices(runner, _, report):
    """What isn't a regular file, and what can't be written or read."""
    folder = prepared(os.path.join(runner.work, "devices"))
    kept = lambda: all(stood_in(folder, name) == content for name, content in FILES.items())
    with open("/dev/full", "wb") as full:
        expect(report, "standard output is a full device", code_of(runner, draw(), folder, stdout=full), (13,), kept())
        expect(report, "a fault line to a full device", code_of(runner, ["draw"], folder, stdout=full), (2,), kept())
    expect(report, "standard output is closed", code_of(runner, draw(), folder, stdout=None, preexec_fn=lambda: os.close(1)), (13,), kept())
    expect(report, "standard input is closed", code_of(runner, draw(), folder, stdin=None, preexec_fn=lambda: os.close(0)), (0,), kept())
    reader, writer = os.pipe()
    os.close(reader)
    expect(report, "standard output is a pipe that nobody reads", code_of(runner, draw(), folder, stdout=writer), (13,), kept())
    expect(report, "the same with the signal as it is by default", code_of(runner, draw(), folder, stdout=writer, preexec_fn=lambda: signal.signal(
        signal.SIGPIPE, signal.SIG_DFL)), (13, -signal.SIGPIPE), kept())
    os.close(writer)
    for name in ("log", "sample"):
        expect(report, f"the {name} is a full device", code_of(runner, draw(**{name: "/dev/full"}), folder), (13,), kept())
        expect(report, f"the {name} is the empty device", code_of(runner, draw(**{name: "/dev/null"}), folder), (0,), kept())
    os.mkdir(os.path.join(folder, "inner"))
    for name in ("design", "frame", "tape"):
        expect(report, f"a folder in place of the {name}", code_of(runner, draw(**{name: "inner"}), folder), (12,), kept())
        expect(report, f"no {name} there", code_of(runner, draw(**{name: "nowhere"}), folder), (12,), kept())
    expect(report, "an empty device as the frame", code_of(runner, draw(frame="/dev/null"), folder), (4,), kept())
    for name in ("log", "sample"):
        expect(report, f"a folder in place of the {name}", code_of(runner, draw(**{name: "inner"}), folder), (13,), kept())
        expect(report, f"the {name} in a folder that isn't there", code_of(runner, draw(**{name: "nowhere/" + name}), folder), (13,), kept())
        expect(report, f"the {name} with a name of 300 letters", code_of(runner, draw(**{name: "n" * 300}), folder), (13,), kept())
    link_to_itself = os.path.join(folder, "loop")
    os.symlink("loop", link_to_itself)
    expect(report, "a link to itself as the frame", code_of(runner, draw(frame="loop"), folder), (12,), kept())
    expect(report, "a link to itself as the log", code_of(runner, draw(log="loop"), folder), (13,), kept())
    os.symlink("frame", os.path.join(folder, "link"))
    # Two names of one file are different names to the program: it reads the frame whole before it writes.
    pipe = os.path.join(folder, "pipe")
    os.mkfifo(pipe)
    feeder = threading.Thread(target=lambda: open(pipe, "wb").write(FRAME))
    feeder.start()
    expect(report, "a named pipe as the frame", code_of(runner, draw(frame="pipe"), folder), (0,), kept())
    feeder.join()
    without_permission(runner, report)
    full_disk(runner, report)


def stood_in(folder, name):
    with open(os.path.join(folder, name), "rb") as opened:
        return opened.read()


def without_permission(runner, report):
    """Files and folders that may not be read or written, as another user where this one may do all."""
    folder = prepared(os.path.join(runner.work, "without"))
    program = shutil.copy(runner.program, os.path.join(runner.work, "program"))
    os.chmod(program, 0o755)
    os.chmod(runner.work, 0o755)
    other = {"user": 65534, "group": 65534, "extra_groups": []} if os.geteuid() == 0 else {}
    own = Runner(program, None, runner.work)
    old = {"log": b"old log", "sample": b"old sample"}
    for name, content in old.items():
        with open(os.path.join(folder, name), "wb") as opened:
            opened.write(content)
    kept = lambda: all(stood_in(folder, name) == content for name, content in {**FILES, **old}.items()) and len(os.listdir(folder)) == 5
    if other:
        for name in os.listdir(folder):
            os.chown(os.path.join(folder, name), other["user"], other["group"])
        os.chown(folder, other["user"], other["group"])
    os.chmod(folder, 0o555)
    expect(report, "the folder is read-only", code_of(own, draw(), folder, **other), (13,), kept())
    os.chmod(folder, 0o755)
    for name in ("design", "frame", "tape"):
        os.chmod(os.path.join(folder, name), 0)
        expect(report, f"the {name} may not be read", code_of(own, draw(), folder, **other), (12,))
        os.chmod(os.path.join(folder, name), 0o644)
    for name in ("log", "sample"):
        os.chmod(os.path.join(folder, name), 0o444)
    expect(report, "the old log is read-only", code_of(own, draw(), folder, **other), (13,), kept())


def full_disk(runner, report):
    """A disk with too little room for the log or the sample, where one may be mounted."""
    folder = os.path.join(runner.work, "small")
    os.makedirs(folder, exist_ok=True)
    if os.geteuid() != 0 or subprocess.run(["mount", "-t", "tmpfs", "-o", "size=128k", "tmpfs", folder], stderr=subprocess.DEVNULL).returncode != 0:
        print("devices: no small disk can be mounted, so a full disk isn't tried")
        return
    try:
        rows = "".join(f"unit{number},{number % 9 + 1}\n" for number in range(3000))
        inputs = {"design": DESIGN.replace(b"n = 2", b"n = 1500"), "frame": b"id,size\n" + rows.encode(), "log": b"old log", "sample": b"old sample"}
        for room in range(0, 128, 4):
            for name in os.listdir(folder):
                os.remove(os.path.join(folder, name))
            for name, content in inputs.items():
                with open(os.path.join(folder, name), "wb") as opened:
                    opened.write(content)
            # What is left of the disk but for so many KB.
            with open(os.path.join(folder, "ballast"), "wb") as ballast:
                left = os.statvfs(folder).f_bavail * os.statvfs(folder).f_frsize
                ballast.write(b"0" * max(0, left - room * 1024))
            code = code_of(runner, ["draw", "--design", "design", "--frame", "frame", "--seed", SEED, "--log", "log", "--sample", "sample"], folder)
            report.note("a disk that is full", code)
            logged, drawn = stood_in(folder, "log"), stood_in(folder, "sample")
            is_whole = logged.endswith(b"\nend %d\n" % (logged.count(b"\n") - 6)) and (drawn == b"old sample" or drawn.count(b"\n") == 1501)
            is_old = logged == b"old log" and drawn == b"old sample"
            if code != (0 if drawn.count(b"\n") == 1501 else 13) or not (is_whole or is_old) or len(os.listdir(folder)) != 5:
                report.fault(f"a disk with {room} KB left: code {code}, files {sorted(os.listdir(folder))}")
    finally:
        subprocess.run(["umount", folder], check=True)


# ---- a frame that changes under the program

def frame_of(rows, size):
    return ("id,size\n" + "".join(f"{number:06},{size}\n" for number in range(rows))).encode()


def changes(runner, _, report):
    """A frame that is replaced, or written over in place, while the program reads: a log names a frame that stood there."""
    folder = prepared(os.path.join(runner.work, "changes"))
    versions = [frame_of(60000, size) for size in (3, 4)]
    digests = {subprocess.run(["sha256sum"], input=frame, capture_output=True).stdout[:64] for frame in versions}
    name, beside = os.path.join(folder, "frame"), os.path.join(folder, "beside")
    words = ["draw", "--design", "design", "--frame", "frame", "--seed", SEED, "--log", "log", "--sample", "sample"]

    def replace(frame):
        with open(beside, "wb") as opened:
            opened.write(frame)
        os.rename(beside, name)

    def write_over(frame):
        with open(name, "r+b") as opened:
            for place in range(0, len(frame), 4096):
                opened.write(frame[place:place + 4096])
                opened.flush()

    for what, change in (("a frame that is replaced", replace), ("a frame that is written over", write_over)):
        replace(versions[0])
        stop = threading.Event()

        def change_on():
            while not stop.is_set():
                for frame in reversed(versions):
                    change(frame)

        changer = threading.Thread(target=change_on)
        changer.start()
        try:
            for _ in range(60):
                code = code_of(runner, words, folder)
                report.note(what, code)
                if code != 0:
                    report.fault(f"{what}: code {code}")
                    continue
                digest = stood_in(folder, "log").split(b"\n")[2].removeprefix(b"frame ")
                mixed = digest not in digests
                report.note(what + (", a mixture drawn from" if mixed else ", a whole version drawn from"), code)
                if mixed and change is replace:
                    report.fault(f"{what}: the log names a frame that never stood there")
        finally:
            stop.set()
            changer.join()


# ---- sizes

def sizes(runner, _, report):
    """Wide, long and large frames. What a frame is refused for is said by its fault line."""
    folder = prepared(os.path.join(runner.work, "sizes"))

    def put(words, **how):
        ended = subprocess.run([runner.program, *words], cwd=folder, stdin=subprocess.DEVNULL, stdout=subprocess.PIPE, timeout=600, **how)
        return ended.returncode, ended.stdout

    def see(what, frame, wanted):
        with open(os.path.join(folder, "frame"), "wb") as opened:
            for piece in frame:
                opened.write(piece)
        found = put(["check", "--design", "design", "--frame", "frame"])
        report.note(f"{what}: put {found[1]!r}", found[0])
        if found != wanted:
            report.fault(f"{what}: {found!r} in place of {wanted!r}")

    accepted = (0, b"accepted 4 units in 1 strata\n")
    rows = [b"a,1", b"b,2", b"c,3", b"d,4"]
    names = b"".join(b",c%d" % number for number in range(100_000 - 2))
    see("100,000 columns", [b"id,size" + names + b"\n"] + [row + b",0" * (100_000 - 2) + b"\n" for row in rows], accepted)
    see("100,000 columns, the asked ones last", [names[1:] + b",id,size\n"] + [b"0," * (100_000 - 2) + row + b"\n" for row in rows], accepted)
    see("a line of 100 MB", [b"id,size,note\n", b"a,1," + b"x" * 100_000_000 + b"\n", b"b,2,\nc,3,\nd,4,\n"], accepted)
    see("a quoted field of 100 MB with line ends", [b"id,size,note\n", b'a,1,"' + b"x\n" * 50_000_000 + b'"\n', b"b,2,\nc,3,\nd,4,\n"], accepted)
    see("a quote that is never closed", [b"id,size\n", b'a,1\n"' + b"x" * 1_000_000], (4, b"error 4.4 length of row 2\n"))
    see("an open quote and 1,000,000 letters", [b'"' + b"x" * 1_000_000], (4, b"error 4.2 missing column id\n"))
    see("100 MB without a line end", [b"x" * 100_000_000], (4, b"error 4.2 missing column id\n"))
    see("100 MB of line ends", [b"\n" * 100_000_000], (4, b"error 4.1 no header\n"))
    head = b"".join(row + b",\n" for row in rows[:3]) + b"d,4,"
    room = sampler.MOST_OF_A_FILE - len(b"id,size,note\n" + head + b"\n")
    filler = [b"x" * 1_000_000] * (room // 1_000_000) + [b"x" * (room % 1_000_000)]
    see("a frame of the greatest size", [b"id,size,note\n", head] + filler + [b"\n"], accepted)
    see("a frame of one byte more", [b"id,size,note\n", head] + filler + [b"x\n"], (12, b""))


PARTS = {"memory": refuse_memory, "calls": refuse_calls, "devices": devices, "changes": changes, "sizes": sizes}


def main():
    """Runs the parts that are named, or all but `sizes`."""
    parser = argparse.ArgumentParser(description="Runs the program while memory, files and devices fail.")
    parser.add_argument("--program", default=PROGRAM)
    parser.add_argument("--all", action="store_true")
    parser.add_argument("--case", action="append", metavar="GROUP/NAME")
    parser.add_argument("parts", nargs="*", metavar="PART", help=", ".join(PARTS))
    chosen = parser.parse_args()
    unknown = [part for part in chosen.parts if part not in PARTS]
    if unknown:
        parser.error(f"no part {unknown[0]}")
    report = Report()
    with tempfile.TemporaryDirectory() as work:
        library = os.path.join(work, "library.so")
        subprocess.run(["cc", "-O1", "-shared", "-fPIC", "-x", "c", "-", "-o", library], input=LIBRARY.encode(), check=True)
        runner = Runner(chosen.program, library, work)
        for part in chosen.parts or [part for part in PARTS if part != "sizes"]:
            PARTS[part](runner, chosen, report)
            report.tell()
    print(f"{report.wrong} not as they have to be")
    return 1 if report.wrong else 0


if __name__ == "__main__":
    sys.exit(main())
