"""What the checks of a service with real nodes share: the service, what a check found, and the run of all checks."""

import os
import shutil
import signal
import subprocess
import tempfile

TOP = os.path.dirname(os.path.dirname(os.path.abspath(__file__)))
PROGRAM = os.environ.get("RWVOTE", f"{TOP}/crates/rwvote/out/rwvote")
# How many seconds a check may take that names no other limit.
SECONDS = 90
THREE = "votes = [1, 1, 1]\nread = 2\nwrite = 2\nproblem = 2\nclients = {}\n"


class Wrong(Exception):
    """What a check found."""


def check(holds, what):
    if not holds:
        raise Wrong(what)


def within(seconds):
    """A check that may take so many seconds."""

    def of(run):
        run.seconds = seconds
        return run

    return of


class Service:
    """A service in a folder of its own, and the processes that run."""

    def __init__(self, room, clients=4, nodes=(1, 2, 3), settings=None):
        self.folder, self.running = f"{room}/locks", []
        # The check's own time bounds it: it makes five syncs for each actor.
        made = self.run("init", given=settings or THREE.format(clients), seconds=None)
        check(made.returncode == 0, f"init: {made}")
        try:
            for number in nodes:
                self.node(number)
        except BaseException:
            self.end()
            raise

    def run(self, *words, given="", seconds=30, **how):
        """A run of the program over the folder, to its end."""
        return subprocess.run([PROGRAM, *words, self.folder], input=given, capture_output=True, text=True, timeout=seconds, **how)

    def start(self, *words, **how):
        self.running.append(subprocess.Popen([PROGRAM, *words, self.folder], stdin=subprocess.PIPE, stdout=subprocess.PIPE, stderr=subprocess.PIPE, text=True, bufsize=1, **how))
        return self.running[-1]

    def node(self, number, *words, **how):
        """Starts a node, and waits until it says that it is up."""
        process = self.start("node", str(number), *words, **how)
        said = process.stderr.readline()
        check(said == f"n{number} is up\n", f"node {number} says {said!r}")
        return process

    def client(self, number, *words, **how):
        return self.start("client", str(number), *words, **how)

    def end(self):
        for process in self.running:
            process.kill()
            process.wait()
            for stream in (process.stdin, process.stdout, process.stderr):
                if stream:
                    try:
                        stream.close()
                    except OSError:
                        pass


def ask(process, command):
    process.stdin.write(f"{command}\n")
    return process.stdout.readline().strip()


def begin_time(run):
    """Ends the check when its time is over."""
    seconds = getattr(run, "seconds", SECONDS)

    def end(*_):
        raise Wrong(f"it takes more than {seconds} seconds")

    signal.signal(signal.SIGALRM, end)
    signal.alarm(seconds)


def run_checks(checks, words, prefix):
    """Runs each check in a new folder, or those whose names have the word. Prints what went wrong and a count of both, and
    returns the exit status."""
    wanted = [it for it in checks if not words or words[0] in it.__name__]
    failed = 0
    for it in wanted:
        room = tempfile.mkdtemp(prefix=prefix)
        begin_time(it)
        try:
            it(room)
        except Exception as wrong:
            failed += 1
            print(f"{it.__name__}: {wrong if isinstance(wrong, Wrong) else repr(wrong)}", flush=True)
        finally:
            signal.alarm(0)
            shutil.rmtree(room, ignore_errors=True)
    print(f"{len(wanted)} checks, {failed} failed")
    return 1 if failed else 0
