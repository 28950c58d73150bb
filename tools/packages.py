"""Programs that a tool needs and that are not on the path, from Debian's packages, in a folder that the tool removes.

So it needs no root, changes nothing on the machine, and starts no daemon.
"""

import glob
import os
import shutil
import subprocess


def missing(needs):
    """The packages of the programs that are not on the path. `needs` has the package of each program."""
    return sorted({package for program, package in needs.items() if not shutil.which(program)})


def download(packages, room, *more):
    """Whether apt-get downloads the packages, and what they need, into the folder."""
    own = ["apt-get", f"-oDir::Cache={room}/cache", "-oDebug::NoLocking=1", "-oAPT::Sandbox::User=", *more]
    os.makedirs(f"{room}/cache/archives/partial", exist_ok=True)
    os.makedirs(f"{room}/lists/partial", exist_ok=True)
    rows = [["update"]] if more else []
    rows += [["install", "--download-only", "--yes", "--no-install-recommends", *packages]]
    return all(subprocess.run([*own, *words], capture_output=True, timeout=60, check=False).returncode == 0 for words in rows)


def fetch(needs, room):
    """Fetches the programs that are missing into the folder. Returns the environment that finds all of them, or why there
    is none."""
    packages, env = missing(needs), dict(os.environ)
    if not packages:
        return env, None
    if not shutil.which("apt-get") or not shutil.which("dpkg"):
        return None, f"no {' and no '.join(packages)} on the path, and no apt-get"
    try:
        if not download(packages, room) and not download(packages, room, f"-oDir::State::lists={room}/lists"):
            return None, f"apt-get cannot download {' and '.join(packages)}"
    except subprocess.TimeoutExpired:
        return None, f"apt-get does not download {' and '.join(packages)} within a minute"
    for package in glob.glob(f"{room}/cache/archives/*.deb"):
        subprocess.run(["dpkg", "--extract", package, f"{room}/root"], capture_output=True, timeout=60, check=False)
    found = {
        "PATH": [f"{room}/root{it}" for it in ("/usr/bin", "/usr/sbin", "/bin")],
        "LD_LIBRARY_PATH": [*glob.glob(f"{room}/root/usr/lib/*-linux-*"), *glob.glob(f"{room}/root/lib/*-linux-*")],
        "PYTHONPATH": glob.glob(f"{room}/root/usr/lib/python3/dist-packages"),
    }
    for name, folders in found.items():
        env[name] = ":".join([*folders, *filter(None, [os.environ.get(name)])])
    return env, None
