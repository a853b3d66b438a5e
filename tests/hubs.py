"""What the tests in Python share: a client, a hub that lives, the program as it is run, and a report of what holds. A test that
imports this shows where it is if SIGTERM ends it, as ./check does when its time is over."""

import atexit
import contextlib
import faulthandler
import os
import re
import resource
import select
import signal
import socket
import subprocess
import sys
import tempfile
import time
import traceback

TOP = os.path.dirname(os.path.dirname(os.path.realpath(__file__)))
sys.path.insert(0, f"{TOP}/tools")
# What `call` says if it can't connect, and what the program says if no reply comes, and if a reply isn't a hub's.
CONNECT = "ftrighub: cannot connect\n"
NO_ANSWER = "ftrighub: no answer\n"
UNKNOWN = "ftrighub: unknown reply\n"
# What a hub that lives says first: its version, its socket, its mode if it has one, how many sessions there may be, and its second socket.
LISTENS = re.compile(r"ftrighub: (\S+) listens at (.+) \((?:mode (0[0-7]{3}), )?(\d+) sessions\)"
                     r"(?:, and at .+ for those who only look \(mode 0[0-7]{3}, at most \d+ of these\))?\n")
# What it says of sessions whose client hung up, and that all sessions are taken.
HANG_UP = re.compile(r"ftrighub: (session \d+ stopped after \d+ s \(lines: \d+\): (could not read from its client|its client left before it read its reply)"
                     r"|\d+ more sessions stopped)")
CROWD = re.compile(r"ftrighub: all \d+ sessions are taken, and clients wait")
# What it says of fifodirs that refused a publisher as full, evicted a subscription, or weren't told a will.
TROUBLE = re.compile(r"ftrighub: [A-Za-z0-9_.-]{1,32}: (a publisher was refused as full, the slowest subscription is \d+ events behind"
                     r"|a subscription was evicted, more than \d+ events behind"
                     r"|a will was not carried out, the slowest subscription is \d+ events behind; end its client, then tell [A-Za-z0-9_.-]{1,32} its state)")
# What has to happen happens within so many seconds, also on a slow machine with much else to do.
PATIENCE = 60


def show_stacks(then=signal.SIG_DFL):
    """Has SIGTERM print the stacks of all threads to standard error, and then do this."""
    faulthandler.unregister(signal.SIGTERM)
    signal.signal(signal.SIGTERM, then)
    faulthandler.register(signal.SIGTERM, all_threads=True, chain=True)


# (what was printed before isn't lost with the process)
sys.stdout.reconfigure(line_buffering=True)
# What starts a test may have it ignore signals, as `nohup` does, and all that a test starts would ignore them too.
for number in (signal.SIGHUP, signal.SIGQUIT):
    signal.signal(number, signal.SIG_DFL)
show_stacks()


def the_program():
    """The path of the program: the test's argument, or the one that was built."""
    return os.path.abspath(sys.argv[1] if len(sys.argv) > 1 else f"{TOP}/crates/hub_cli/out/hub_cli")


def seen_by(check, seconds=PATIENCE, of=None):
    """Whether the check holds within so many seconds, and before the process that it is of has ended."""
    deadline = time.monotonic() + seconds
    while not check():
        if time.monotonic() > deadline or (of is not None and of.poll() is not None):
            return check()
        time.sleep(0.01)
    return True


def stop(process):
    """Stops the process, and waits until each of its threads has stopped: the signal alone returns earlier."""
    os.kill(process, signal.SIGSTOP)
    tasks = f"/proc/{process}/task"
    if not seen_by(lambda: all(letter_of_state(f"{tasks}/{task}") == "T" for task in os.listdir(tasks))):
        raise TimeoutError(f"the process {process} wasn't stopped within {PATIENCE} s")


def letter_of_state(task):
    """How the thread is, as /proc has it: T if it is stopped."""
    with open(f"{task}/stat", encoding="ascii") as file:
        return file.read().rpartition(") ")[2][0]


class Client:
    """A connection to the hub. If nobody listens yet, it tries until the hub's process has ended, or for a minute, and then fails."""

    def __init__(self, path, process=None):
        self.stream = socket.socket(socket.AF_UNIX)
        if not seen_by(lambda: self.stream.connect_ex(path) == 0, of=process):
            ended = f", and the hub has ended with status {process.returncode}" if process and process.poll() is not None else ""
            raise ConnectionRefusedError(f"nobody listens at {path}{ended}")
        self.stream.settimeout(PATIENCE)
        self.replies = self.stream.makefile("rb")

    def send(self, text):
        self.stream.sendall(text.encode() + b"\n")

    def reply(self):
        return self.replies.readline().decode().rstrip("\n")

    def ask(self, text):
        self.send(text)
        return self.reply()

    def ask_each(self, *texts):
        return [self.ask(text) for text in texts]

    def ask_at_once(self, texts):
        """Sends all lines, and then reads all replies."""
        self.send("\n".join(texts))
        return [self.reply() for _ in texts]

    def rest(self):
        """The replies up to the end of the connection, or nothing if it doesn't end in a minute."""
        try:
            return self.replies.read().decode()
        except TimeoutError:
            return ""

    def close(self):
        self.replies.close()
        self.stream.close()


# Each hub that was started.
HUBS = []


@contextlib.contextmanager
def folder_of_hubs(prefix=None):
    """A folder. The hubs end before it is removed, since a hub puts the file of its socket back."""
    with tempfile.TemporaryDirectory(prefix=prefix) as folder:
        try:
            yield folder
        finally:
            for hub in HUBS:
                hub.kill()


class Hub:
    """A hub at a path that serves without end, until the test ends. It may open so many files, and runs in this folder, with this
    umask, and as this user."""

    def __init__(self, program, path, *words, files=None, cwd=None, umask=-1, user=None):
        ready, told = os.pipe()
        self.process = subprocess.Popen(
            [program, "serve", path, "--forever", "--ready-fd", str(told), *words],
            pass_fds=[told], stderr=subprocess.PIPE, text=True, cwd=cwd, umask=umask, user=user)
        os.close(told)
        self.ready, self.path, self.first = ready, path, ""
        atexit.register(self.kill)
        HUBS.append(self)
        if files is not None:
            resource.prlimit(self.process.pid, resource.RLIMIT_NOFILE, (files, files))

    def told(self, seconds=PATIENCE):
        """Waits for so long until the hub has written to its descriptor or has ended, and returns what it wrote. Its first line on
        standard error, which comes then, is kept."""
        told = os.read(self.ready, 16) if select.select([self.ready], [], [], seconds)[0] else b""
        if told and not self.first:
            self.first = next_line(self.process.stderr.fileno())
        return told

    def client(self):
        return Client(self.path, self.process)

    def kill(self):
        self.process.kill()
        self.process.wait()

    def end(self):
        """Kills the hub, and returns what it wrote to standard error, but for the line that it listens."""
        self.process.kill()
        told = self.process.communicate()[1]
        return told if self.first else LISTENS.sub("", told, count=1)

    def status(self, what):
        return number_of(self.process.pid, what)

    def processor_time(self):
        return processor_time(self.process.pid)

    def switches(self):
        return switches(self.process.pid)

    def descriptors(self):
        """How many descriptors it has open. Each session has one."""
        return len(os.listdir(f"/proc/{self.process.pid}/fd"))


def next_line(descriptor):
    """The next line of a pipe, or what came of it in a minute or before its end. Nothing behind it is read."""
    line, deadline = b"", time.monotonic() + PATIENCE
    while not line.endswith(b"\n") and select.select([descriptor], [], [], max(0, deadline - time.monotonic()))[0]:
        byte = os.read(descriptor, 1)
        if byte == b"":
            break
        line += byte
    return line.decode()


def number_of(task, what):
    """A number of /proc/TASK/status. A task is a process, or PROCESS/task/THREAD."""
    with open(f"/proc/{task}/status", encoding="ascii") as file:
        return int(re.search(rf"^{what}:\s+(\d+)", file.read(), re.M)[1])


def switches(process):
    """How often the threads of a process have stopped to wait for something."""
    return sum(number_of(f"{process}/task/{thread}", "voluntary_ctxt_switches") for thread in os.listdir(f"/proc/{process}/task"))


def processor_time(process):
    """The seconds of processor time that all threads of a process have used, in the user's mode and in the system's."""
    with open(f"/proc/{process}/stat", encoding="ascii") as file:
        fields = file.read().rpartition(")")[2].split()
    return (int(fields[11]) + int(fields[12])) / os.sysconf("SC_CLK_TCK")


class Program:
    """The program, in an environment of its own."""

    def __init__(self, path):
        self.path = path

    def run(self, *words, known=None, **streams):
        """Runs the program with these words, and returns its status, its output and what it says on standard error. In its
        environment `known` is the path of the socket. The status is None if it doesn't end in a minute."""
        try:
            done = subprocess.run([self.path, *words], env=environment(known), stdin=subprocess.DEVNULL, timeout=PATIENCE, check=False,
                                  **{"stdout": subprocess.PIPE, "stderr": subprocess.PIPE, **streams})
        except subprocess.TimeoutExpired:
            return None, "", ""
        output, fault = ((text or b"").decode() for text in (done.stdout, done.stderr))
        return done.returncode, output, fault


def unreached(path, why="no such file"):
    """What a command for people says if it can't connect to a hub."""
    return f"ftrighub: cannot connect to {path}: {why}\n"


# Why it can't.
NOBODY, FULL, NO_PATH = "nobody listens there", "no room for one more connection", "the path is empty, or has more than 107 bytes"


def environment(known):
    others = {name: value for name, value in os.environ.items() if name != "FTRIGHUB_SOCKET"}
    return others if known is None else {**others, "FTRIGHUB_SOCKET": known}


def hub_at(program, path):
    """A hub at a path, which listens."""
    hub = Hub(program.path, path)
    hub.told()
    os.close(hub.ready)
    return hub


class Report:
    """Counts what holds, and prints what doesn't, with the name of the test."""

    def __init__(self):
        self.test = os.path.basename(sys.argv[0])
        self.passed = self.failed = 0

    def add(self, name, fault):
        if fault is None:
            self.passed += 1
            self.tell_passed(name)
        else:
            self.failed += 1
            sys.stdout.write(f"{self.test}, {name}: FAILED: {fault}\n")

    def tell_passed(self, name):
        """Names what has passed as well, for what tries edits."""
        if os.environ.get("SAY_PASSED"):
            sys.stdout.write(f"{self.test}, {name}: passed\n")

    def same(self, name, found, wanted):
        self.add(name, None if found == wanted else f"{found!r}, and wanted is {wanted!r}")

    def at_most(self, name, found, most):
        self.add(name, None if found <= most else f"{found}, and at most {most} is wanted")

    def tried(self, name, check, *arguments):
        """Makes a check. If it breaks off, for example since a hub doesn't answer, that fails, and what is left of it is left out."""
        try:
            check(*arguments)
        except Exception as fault:  # (whatever it is, the other checks are made)
            frames = traceback.extract_tb(fault.__traceback__)[1:]
            place = " > ".join(f"{os.path.basename(it.filename)}:{it.lineno}" for it in frames)
            self.add(name, f"it broke off at {place}: {fault!r}")
        else:
            self.tell_passed(name)

    def end(self):
        """Prints the last line, and returns the status of the test."""
        print(f"{self.passed} passed, {self.failed} failed")
        return 1 if self.failed else 0


def checked(checks, report=None, kind=str):
    """Makes these checks of the program in one folder, and returns the status of the test. The program is a path, or what is made of it."""
    program, report = kind(the_program()), report or Report()
    with folder_of_hubs() as folder:
        for check in checks:
            report.tried(check.__name__, check, program, folder, report)
    return report.end()
