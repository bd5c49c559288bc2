"""A cluster of dask.distributed on this machine: a scheduler, and for each folder of shards a worker, as processes of their own."""

import os
import shutil
import signal
import socket
import subprocess
import sys
import tempfile
import time
from typing import NamedTuple

from support import CLIENT, PATIENCE

from buncocedar.dask_shards import FOLDER, RESOURCE
from buncocedar.shards import make

QUIET = {"DASK_DISTRIBUTED__WORKER__DAEMON": "False", "DASK_LOGGING__DISTRIBUTED": "critical"}


class Program(NamedTuple):
    """A program of an index that a worker has started: its process, and the file."""

    process: int
    path: str


def free_port():
    with socket.socket() as probe:
        probe.bind(("127.0.0.1", 0))
        return probe.getsockname()[1]


def spread(folder, shards, machines, program):
    """Makes shards, spread over folders as if each stood on a machine of its own, and answers the folders."""
    folders = [os.path.join(folder, f"machine{number}") for number in range(machines)]
    for number, place in enumerate(folders):
        make(place, shards, range(number, shards, machines), name="test", program=program)
    return folders


def programs_of(process):
    """The programs that a process has started and that run."""
    found = []
    for number in filter(str.isdigit, os.listdir("/proc")):
        try:
            with open(f"/proc/{number}/stat") as file:
                parent = int(file.read().rpartition(")")[2].split()[1])
            with open(f"/proc/{number}/cmdline", "rb") as file:
                words = file.read().rstrip(b"\0").split(b"\0")
        except (OSError, ValueError):
            continue
        if parent == process and words[-1:] == [b"run"]:
            found.append(Program(int(number), words[-2].decode()))
    return found


class Cluster:
    """The processes of a cluster; a worker is named by the number of its folder."""

    def __init__(self, folders, program):
        self.folders = folders
        self.program = program
        self.scratch = tempfile.mkdtemp()
        self.address = f"127.0.0.1:{free_port()}"
        self.workers = [None] * len(folders)
        self.start_scheduler()
        for number in range(len(folders)):
            self.start(number)

    def started(self, module, *words, **environment):
        """One process, of this Python; it is the first of a group of its own."""
        paths = os.pathsep.join(filter(None, [CLIENT, os.environ.get("PYTHONPATH")]))
        return subprocess.Popen(
            [sys.executable, "-m", module, *words, "--no-dashboard"],
            env={**os.environ, "PYTHONPATH": paths, "BUNCOCEDAR_PROGRAM": self.program, **QUIET, **environment},
            stdout=subprocess.DEVNULL,
            stderr=subprocess.DEVNULL,
            start_new_session=True,
        )

    def start_scheduler(self):
        host, port = self.address.split(":")
        self.scheduler = self.started("distributed.cli.dask_scheduler", "--host", host, "--port", port)

    def start(self, number):
        """Starts the worker of a folder."""
        words = [self.address, "--host", "127.0.0.1", "--nthreads", "1", "--memory-limit", "0", "--resources", f"{RESOURCE}=1"]
        words += ["--no-nanny", "--local-directory", os.path.join(self.scratch, str(number))]
        self.workers[number] = self.started("distributed.cli.dask_worker", *words, **{FOLDER: self.folders[number]})

    def wait(self):
        """Waits until all workers are there."""
        from distributed import Client

        end = time.monotonic() + PATIENCE
        while True:
            try:
                with Client(self.address, set_as_default=False, timeout=10) as client:
                    client.wait_for_workers(len(self.folders), PATIENCE)
                return
            except OSError:
                if time.monotonic() > end:
                    raise

    def kill(self, number, whole=False):
        """Kills the worker of a folder; with `whole` its programs too, as where a machine stops."""
        programs = programs_of(self.workers[number].pid) if whole else []
        self.workers[number].kill()
        for program in programs:
            try:
                os.kill(program.process, signal.SIGKILL)
            except ProcessLookupError:
                pass
        self.workers[number].wait()

    def close(self):
        for process in [*self.workers, self.scheduler]:
            process.send_signal(signal.SIGCONT)
            process.terminate()
        for process in [*self.workers, self.scheduler]:
            try:
                process.wait(10)
            except subprocess.TimeoutExpired:
                process.kill()
                process.wait()
        shutil.rmtree(self.scratch, ignore_errors=True)
