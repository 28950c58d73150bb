"""Locks of an `rwvote` service for Python 3.9 and later. It needs the standard library alone.

    from rwvote import Service

    with Service("locks").write("config", timeout=2.0) as lock:
        ...  # this program is the only holder of the lock `config`

A `Service` starts a process `rwvote client` for each lock that is held at once, and talks to it by two pipes. It keeps
some idle processes for the next locks. It ends each of them when it is closed or dropped, and when Python exits.
If Python is killed, each process reads the end of its input, releases its lock and ends.

Every method may be called from any thread. In a forked child a `Service` starts processes of its own, and each lock that
the parent holds is `lost`.
"""

from __future__ import annotations

import atexit
import errno
import math
import os
import queue
import re
import subprocess
import threading
import time
import weakref
from types import TracebackType
from typing import Callable, Literal, Optional

__all__ = ["BadName", "Busy", "ClientLost", "Late", "Lock", "LockError", "LockFault", "NoClient", "NoProgram", "Service"]

Mode = Literal["read", "write"]
Callback = Optional[Callable[[], object]]

_NAME = re.compile(r"[a-z0-9-]{1,32}")
_FAULT = re.compile(r"fault (\d+)(?:: (.*))?")
_BAD_NAME, _NO_CLIENT = 804, 966
# After these answers a client obeys further commands: no such ballot, and too few nodes answer.
_HARMLESS = (703, 912)
_MOST_MILLISECONDS = 2**32 - 1
_MOST_BALLOTS = 8
# How many seconds a client may need for its answer, beside the time that it was told to wait for a lock.
_SLACK = 15.0
# How many seconds a client may need to end after the end of its input. It needs less than two, unless it was stopped.
_LAST_MOMENT = 5.0


class LockError(Exception):
    """Every error of this module."""


class LockFault(LockError):
    """A client fails with the fault of this number. `rwvote explain` says more of a number."""

    def __init__(self, number: int, words: str) -> None:
        super().__init__(number, words)
        self.number = number
        self.words = words

    def __str__(self) -> str:
        return f"fault {self.number}: {self.words}"


class NoClient(LockFault):
    """Each client of the service is in use by a process."""


class BadName(LockFault, ValueError):
    """A name has 1 to 32 characters of a-z, 0-9 and -."""


class Late(LockError, TimeoutError):
    """The lock was not free in time. The request is taken back."""


class Busy(LockError):
    """The lock is not free now. The request is taken back."""


class ClientLost(LockError):
    """The client process died. If it held a lock, another client may get the lock now."""


class NoProgram(LockError):
    """The program `rwvote` cannot be started."""


class _Silent(Exception):
    """A client did not answer in time."""


# While a process is started no thread forks, so that a forked child knows of each pipe that it has to close.
_starting = threading.RLock()
_clients: weakref.WeakSet[_Client] = weakref.WeakSet()
_watched: set[_Watched] = set()


class _Watched:
    """A client process as the thread knows it that reads its answers.

    It has no reference to the process's input. If a `_Client` is dropped, the input is closed and the process ends.
    """

    def __init__(self, program: str, process: subprocess.Popen[bytes], running: set[_Watched]) -> None:
        self.program, self.process, self.running = program, process, running
        self.answers: queue.SimpleQueue[str | None] = queue.SimpleQueue()
        self.mutex = threading.RLock()
        self.is_dead = False
        self.holder: weakref.ref[Lock] | None = None
        self.errors = ""
        self.ended = threading.Event()

    def watch(self) -> None:
        """Reads answers until the process dies."""
        assert self.process.stdout and self.process.stderr
        rest = b""
        while block := _read(self.process.stdout.fileno()):
            *lines, rest = (rest + block).split(b"\n")
            for line in lines:
                self.answers.put(line.decode("utf-8", "replace"))
        with self.mutex:
            self.is_dead = True
            callback = self.callback()
        errors = b""
        while block := _read(self.process.stderr.fileno()):
            errors += block
        self.errors = errors.decode("utf-8", "replace")
        self.process.wait()
        self.process.stdout.close()
        self.process.stderr.close()
        self.answers.put(None)
        self.running.discard(self)
        _watched.discard(self)
        self.ended.set()
        if callback:
            callback()

    def callback(self) -> Callback:
        """What the holder of the lock wants to be called, unless it dropped the lock."""
        lock = self.holder and self.holder()
        return lock._on_lost if lock else None

    def begin_holding(self, lock: Lock) -> None:
        """Calls the holder back when the process dies, or now if it is dead."""
        with self.mutex:
            self.holder = weakref.ref(lock)
            callback = self.callback() if self.is_dead else None
        if callback:
            callback()

    def end_holding(self) -> bool:
        """Calls nothing back from now on. Returns whether the process is alive."""
        with self.mutex:
            self.holder = None
            return not self.is_dead

    def join(self, deadline: float) -> None:
        """Waits until the process has ended. At the deadline it kills it."""
        if not self.ended.wait(max(0.0, deadline - time.monotonic())):
            self.process.kill()
            self.ended.wait(1.0)

    def why(self) -> LockError:
        """Why the process ended."""
        found = _FAULT.findall(self.errors)
        if found:
            number, words = found[-1]
            return _fault(self.program, int(number), words)
        status = self.process.returncode
        how = f"was killed by signal {-status}" if status < 0 else f"ended with status {status}"
        words = self.errors.strip().partition("\n")[0]
        return ClientLost(f"the client process {how}: {words}" if words else f"the client process {how}")


class _Client:
    """A client process, and the end of the pipe by which it gets commands."""

    def __init__(self, pool: _Pool) -> None:
        self.pipe, self.talk = threading.RLock(), threading.RLock()
        self.is_used, self.owed = False, 0
        with _starting:
            process = _start(pool.words)
            assert process.stdin
            self.input, process.stdin = process.stdin, None
            self.watched = _Watched(pool.words[0], process, pool.running)
            _clients.add(self)
            pool.family.add(self)
            pool.running.add(self.watched)
            _watched.add(self.watched)
        try:
            threading.Thread(target=self.watched.watch, name="rwvote client", daemon=True).start()
        except BaseException:
            self.close()
            self.watched.watch()
            raise

    def ask(self, command: str, seconds: float | None) -> str:
        """The answer to a command. If the process dies instead, its fault is raised."""
        with self.talk:
            try:
                with self.pipe:
                    self.input.write(f"{command}\n".encode("ascii"))
            except (OSError, ValueError):
                pass  # the process is dead or about to end, and the end of its answers shows that
            self.owed += 1
            while True:
                try:
                    answer = self.watched.answers.get(timeout=seconds)
                except queue.Empty:
                    raise _Silent from None
                if answer is None:
                    self.watched.answers.put(None)
                    raise self.watched.why()
                self.owed -= 1
                if self.owed == 0:
                    return answer  # each one before it answers a command whose caller was interrupted

    def close(self) -> None:
        """Lets the process leave and end, and does not wait for that."""
        with self.pipe:
            try:
                self.input.close()
            except OSError:
                pass

    def forget(self) -> None:
        """Closes the pipes in a forked child. The process goes on for the parent."""
        self.pipe, self.talk, process = threading.RLock(), threading.RLock(), self.watched.process
        self.watched.mutex, self.watched.is_dead, self.watched.holder = threading.RLock(), True, None
        process.returncode = 0  # it is no child of this process, so nobody is to wait for it
        self.watched.answers = queue.SimpleQueue()
        self.watched.answers.put(None)
        for stream in (self.input, process.stdout, process.stderr):
            try:
                if stream:
                    stream.close()
            except OSError:
                pass


class _Pool:
    """The client processes of a service."""

    def __init__(self, words: list[str], idle: int) -> None:
        self.words, self.most_idle = words, idle
        self.mutex = threading.RLock()
        self.idle: list[_Client] = []
        self.family: weakref.WeakSet[_Client] = weakref.WeakSet()
        self.running: set[_Watched] = set()
        self.is_closed = False
        with _starting:
            _pools.add(self)

    def take(self) -> _Client:
        """An idle client, or a new one."""
        with self.mutex:
            while self.idle:
                client = self.idle.pop()
                if not client.watched.is_dead:
                    return client
                client.close()
            self.check_open()
        client = _Client(self)
        with self.mutex:
            if self.is_closed:
                client.close()
            self.check_open()
        return client

    def put(self, client: _Client) -> None:
        """Keeps a client that is outside, or ends it if enough are idle."""
        with self.mutex:
            if not self.is_closed and not client.watched.is_dead and len(self.idle) < self.most_idle:
                self.idle.append(client)
                return
        client.close()

    def check_open(self) -> None:
        if self.is_closed:
            raise ClientLost("the service object is closed")

    def close(self) -> None:
        """Lets each client leave and end, and does not wait for that."""
        with self.mutex:
            self.is_closed = True
            with _starting:
                clients = list(self.family)
            self.idle.clear()
        for client in clients:
            client.watched.end_holding()
            client.close()

    def forget(self) -> None:
        """In a forked child: begins without a client."""
        self.mutex = threading.RLock()
        self.idle.clear()
        self.family.clear()
        self.running = set()


_pools: weakref.WeakSet[_Pool] = weakref.WeakSet()


class Lock:
    """A lock that this program holds, until `leave` or the end of a `with` block."""

    def __init__(self, service: Service, client: _Client, mode: Mode, name: str, on_lost: Callback) -> None:
        self._service, self._watched, self._held = service, client.watched, [client]
        self._was_lost = False
        self._on_lost: Callback = on_lost
        self.mode: Mode = mode
        self.name = name
        client.watched.begin_holding(self)

    @property
    def lost(self) -> bool:
        """Whether the client process died while it held the lock. Then stop using what the lock protects: another client
        may get the lock."""
        return self._was_lost or (bool(self._held) and self._watched.is_dead)

    def soften(self) -> None:
        """Goes on as a reader. Other readers may get in, and no writer was in between."""
        client = self._client()
        if self.mode == "read":
            raise RuntimeError(f"the lock {self.name} is held to read already")
        self.mode = "read"  # also if the wait for the answer is interrupted
        try:
            answer = client.ask("soften", _SLACK)
        except LockFault:
            raise
        except (LockError, _Silent) as error:
            raise ClientLost(f"the client process is lost, and with it the lock {self.name}") from error
        if answer != "softened":
            raise self._service._unexpected(answer)

    def leave(self) -> None:
        """Gives the lock up. If the lock was given up before, it does nothing.

        ClientLost: the client process died before it had released the lock."""
        try:
            client = self._held.pop()
        except IndexError:
            return
        try:
            answer = client.ask("leave", _SLACK) if client.watched.end_holding() else ""
        except (ClientLost, _Silent):
            answer = ""
        except BaseException as error:
            self._was_lost = isinstance(error, LockError)
            client.close()
            raise
        if answer == "outside":
            self._service._pool.put(client)
            return
        self._was_lost = True
        client.close()
        if answer:
            raise self._service._unexpected(answer)
        raise ClientLost(f"the client process died before it had released the lock {self.name}")

    def _client(self) -> _Client:
        """The client, if it holds the lock yet."""
        try:
            client = self._held[0]
        except IndexError:
            raise RuntimeError(f"the lock {self.name} is given up already") from None
        if client.watched.is_dead:
            raise ClientLost(f"the client process is lost, and with it the lock {self.name}")
        return client

    def __enter__(self) -> Lock:
        self._client()
        return self

    def __exit__(
        self, kind: type[BaseException] | None, error: BaseException | None, trace: TracebackType | None
    ) -> None:
        try:
            self.leave()
        except LockError:
            if error is None:
                raise

    def __repr__(self) -> str:
        state = "lost" if self.lost else self.mode if self._held else "given up"
        return f"<Lock {self.name}: {state}>"


class Service:
    """A service in a directory, as `rwvote init` makes it.

    program: the program `rwvote`. Without it the environment variable RWVOTE names it, and else it is found on the path.
    idle: how many idle client processes are kept for the next locks. Each is a client that no other process can use.
    options: further arguments of `rwvote client`, such as `--no-journal`.

    Nothing is started before the first lock.
    """

    def __init__(
        self,
        folder: str | os.PathLike[str],
        *,
        program: str | os.PathLike[str] | None = None,
        idle: int = 4,
        options: tuple[str, ...] = (),
    ) -> None:
        self.folder = os.path.join(os.getcwd(), os.fspath(folder))
        self.program = os.fspath(program or os.environ.get("RWVOTE") or "rwvote")
        self._pool = _Pool([self.program, "client", self.folder, *options], idle)
        weakref.finalize(self, self._pool.close).atexit = False

    def read(
        self, name: str, *, timeout: float | None = None, ballot: int = 1, on_lost: Callback = None
    ) -> Lock:
        """Waits for the lock to read. See `write`."""
        return self._enter("read", name, timeout, ballot, on_lost)

    def write(
        self, name: str, *, timeout: float | None = None, ballot: int = 1, on_lost: Callback = None
    ) -> Lock:
        """Waits for the lock to write.

        timeout: for how many seconds. Without it, for as long as it takes. With 0 it waits for no other holder.
        ballot: the place of the ballot.
        on_lost: what a thread calls if the client process dies while it holds the lock.

        Late: the time is over. NoClient: each client is in use. BadName: not a name. LockFault: any other fault.
        ClientLost: the client process died while it waited. NoProgram: it cannot be started."""
        return self._enter("write", name, timeout, ballot, on_lost)

    def try_(self, mode: Mode, name: str, *, ballot: int = 1, on_lost: Callback = None) -> Lock:
        """Takes the lock if it is free now. Else it raises Busy, or LockFault 912 if too few nodes answer."""
        if mode not in ("read", "write"):
            raise ValueError(f"not a mode: {mode!r}")
        return self._enter(mode, name, None, ballot, on_lost, tries=True)

    def try_read(self, name: str, *, ballot: int = 1, on_lost: Callback = None) -> Lock:
        """The same as `try_("read", name)`."""
        return self.try_("read", name, ballot=ballot, on_lost=on_lost)

    def try_write(self, name: str, *, ballot: int = 1, on_lost: Callback = None) -> Lock:
        """The same as `try_("write", name)`."""
        return self.try_("write", name, ballot=ballot, on_lost=on_lost)

    def close(self) -> None:
        """Gives up every lock, ends each client process, and waits until they have ended."""
        self._pool.close()
        _join(list(self._pool.running))

    def __enter__(self) -> Service:
        return self

    def __exit__(
        self, kind: type[BaseException] | None, error: BaseException | None, trace: TracebackType | None
    ) -> None:
        self.close()

    def __repr__(self) -> str:
        return f"<Service {self.folder}>"

    def _enter(
        self, mode: Mode, name: str, timeout: float | None, ballot: int, on_lost: Callback, tries: bool = False
    ) -> Lock:
        """Takes an idle client, or a new one, and lets it ask for the lock."""
        _check(name, timeout, ballot)
        most = 0.0 if tries else math.inf if timeout is None else timeout
        began = time.monotonic()
        while True:
            left = max(0.0, most - (time.monotonic() - began))
            client = self._pool.take()
            was_used, client.is_used = client.is_used, True
            try:
                answer = client.ask(_command(mode, name, left, ballot), None if left == math.inf else left + _SLACK)
                if answer == "inside":
                    return Lock(self, client, mode, name, on_lost)
            except _Silent:
                client.close()
                raise Late(f"{mode} {name}: the client process does not answer") from None
            except ClientLost:
                client.close()
                if not was_used or self._pool.is_closed:
                    raise
                continue  # it died while it was idle
            except BaseException:
                client.close()
                raise
            if answer not in ("late", "busy", *(f"fault {it}" for it in _HARMLESS)):
                client.close()
                raise self._unexpected(answer)
            self._pool.put(client)
            self._pool.check_open()
            if tries and answer == "busy":
                raise Busy(f"{mode} {name}: the lock is not free")
            if answer in ("late", "busy"):
                raise Late(f"{mode} {name}: the lock was not free within {timeout} seconds")
            raise self._unexpected(answer)

    def _unexpected(self, answer: str) -> LockError:
        """The error of an answer that is a fault, or that no client gives."""
        found = _FAULT.fullmatch(answer)
        if found:
            return _fault(self.program, int(found[1]), "")
        return LockError(f"not the answer of a client: {answer!r}")


def _check(name: str, timeout: float | None, ballot: int) -> None:
    """Raises an error unless a command can be made of these."""
    if not isinstance(name, str):
        raise TypeError(f"a name is a str, not {type(name).__name__}")
    if not _NAME.fullmatch(name):
        raise BadName(_BAD_NAME, f"not a name: {name!r} (1 to 32 characters of a-z, 0-9 and -)")
    if isinstance(ballot, bool) or not isinstance(ballot, int) or not 1 <= ballot <= _MOST_BALLOTS:
        raise ValueError(f"ballot: a place from 1 to {_MOST_BALLOTS}, not {ballot!r}")
    if timeout is not None and timeout != math.inf and not 0 <= timeout <= _MOST_MILLISECONDS / 1000:
        raise ValueError(f"timeout: seconds from 0 to {_MOST_MILLISECONDS // 1000}, not {timeout!r}")


def _command(mode: Mode, name: str, seconds: float, ballot: int) -> str:
    """The line of a command that asks for a lock. For 0 seconds it is one that does not wait."""
    asked = f"{mode} {name}" if ballot == 1 else f"{mode} {name} b{ballot}"
    if seconds == math.inf:
        return asked
    return f"{asked} within {math.ceil(seconds * 1000)}" if seconds > 0 else f"try {asked}"


def _fault(program: str, number: int, told: str) -> LockFault:
    """The fault of this number. If its words were not told, the program explains the number."""
    kind = NoClient if number == _NO_CLIENT else LockFault
    return kind(number, told or _explained(program, number))


def _explained(program: str, number: int) -> str:
    words = [program, "explain", str(number)]
    try:
        said = subprocess.run(words, stdin=subprocess.DEVNULL, capture_output=True, timeout=_SLACK).stdout
    except (OSError, subprocess.SubprocessError):
        said = b""
    first = said.decode("utf-8", "replace").partition("\n")[0]
    return first.partition(": ")[2] or f"see `rwvote explain {number}`"


def _start(words: list[str]) -> subprocess.Popen[bytes]:
    """A client process in a session of its own, so that Ctrl-C at a terminal reaches Python alone."""
    pipe = subprocess.PIPE
    try:
        return subprocess.Popen(words, stdin=pipe, stdout=pipe, stderr=pipe, bufsize=0, start_new_session=True)
    except OSError as error:
        if error.errno in (errno.ENOENT, errno.EACCES, errno.ENOEXEC, errno.ENOTDIR):
            raise NoProgram(f"cannot start {words[0]!r}: {error.strerror}") from error
        raise


def _read(file: int) -> bytes:
    try:
        return os.read(file, 4096)
    except OSError:
        return b""


def _join(clients: list[_Watched]) -> None:
    """Waits until these processes have ended."""
    deadline = time.monotonic() + _LAST_MOMENT
    for watched in clients:
        watched.join(deadline)


def _end_all() -> None:
    """When Python exits: ends each client process."""
    for pool in list(_pools):
        pool.close()
    _join(list(_watched))


def _forget_all() -> None:
    """In a forked child: the client processes are the parent's."""
    global _starting
    _starting = threading.RLock()
    for pool in list(_pools):
        pool.forget()
    for client in list(_clients):
        client.forget()
    _clients.clear()
    _watched.clear()


atexit.register(_end_all)
if hasattr(os, "register_at_fork"):
    os.register_at_fork(
        before=lambda: _starting.acquire(),
        after_in_parent=lambda: _starting.release(),
        after_in_child=_forget_all,
    )
