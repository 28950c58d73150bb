# Two workers, each a process of its own, append to one file. Each reads the last number of the file and appends the next
# one, under the lock `log`. Without the lock two workers would now and then append the same number.
#
# usage: two_workers.py DIR FILE LINES
#
# DIR is the directory of a service, and LINES how many lines each worker appends. `rwvote.py` of clients/python has to be
# in this folder or on PYTHONPATH.

import sys
from multiprocessing import Process

from rwvote import LockError, Service


def last_number(path: str) -> int:
    try:
        with open(path, encoding="ascii") as file:
            return int(file.readlines()[-1].split()[0])
    except FileNotFoundError:
        return 0


def work(worker: str, folder: str, path: str, lines: int) -> None:
    with Service(folder) as service:
        for _ in range(lines):
            with service.write("log", timeout=10.0) as lock:
                number = last_number(path) + 1
                if lock.lost:
                    sys.exit(f"{worker}: the client process died, so another worker may write")
                with open(path, "a", encoding="ascii") as file:
                    file.write(f"{number} {worker}\n")


def main(folder: str, path: str, lines: str) -> int:
    workers = [Process(target=work, args=(name, folder, path, int(lines))) for name in ("first", "second")]
    for worker in workers:
        worker.start()
    for worker in workers:
        worker.join()
    try:
        with Service(folder) as service, service.read("log", timeout=10.0):
            print(f"{last_number(path)} lines")
    except LockError as error:
        print(error, file=sys.stderr)
        return 1
    return max(abs(worker.exitcode or 0) for worker in workers)


if __name__ == "__main__":
    if len(sys.argv) != 4:
        sys.exit("usage: two_workers.py DIR FILE LINES")
    sys.exit(main(*sys.argv[1:]))
