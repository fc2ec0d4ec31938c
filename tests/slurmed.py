"""A Slurm of a judge's own, for tests/judge_farm.py: a controller, two node daemons with a processor each, and their
munge daemon. They run as this user in a folder, with ports of their own, and end with the judge."""

from __future__ import annotations

import getpass
import os
import pathlib
import shutil
import signal
import socket
import subprocess
import time
from collections.abc import Callable, Sequence

from judging import Wrong

# What must be installed: Debian's packages slurmctld, slurmd and munge.
DAEMONS = ["munged", "slurmctld", "slurmd"]
NODES = ["one", "two"]
# Where Debian has daemons, which is not on each user's path.
PATH = os.environ["PATH"] + ":/usr/sbin:/sbin"
# Seconds after which a node that does not answer is lost. Its tasks begin again when their credentials have expired.
LOST = 10
EXPIRED = 5
# How many seconds a step may take that takes a few: a machine may be busy.
PATIENCE = 300
CONFIGURATION = """ClusterName=judge
SlurmctldHost={host}(127.0.0.1)
SlurmctldPort={ports[0]}
AuthInfo=socket={folder}/munge.socket,cred_expire={expired}
SlurmUser={user}
SlurmdUser={user}
StateSaveLocation={folder}/state
SlurmdSpoolDir={folder}/%n
SlurmctldPidFile={folder}/slurmctld.pid
SlurmdPidFile={folder}/%n.pid
ProctrackType=proctrack/linuxproc
TaskPlugin=task/none
JobAcctGatherType=jobacct_gather/none
SelectType=select/linear
SchedulerType=sched/builtin
MpiDefault=none
ReturnToService=2
SlurmdTimeout={lost}
SlurmdParameters=config_overrides
NodeName=one NodeHostname={host} NodeAddr=127.0.0.1 Port={ports[1]} CPUs=1
NodeName=two NodeHostname={host} NodeAddr=127.0.0.1 Port={ports[2]} CPUs=1
PartitionName=all Nodes=one,two Default=YES State=UP
"""


class Unstarted(Exception):
    """The daemons do not start on this machine."""


def is_here() -> bool:
    return all(shutil.which(daemon, path=PATH) for daemon in [*DAEMONS, "sbatch", "squeue", "sinfo"])


def free_ports(count: int) -> list[int]:
    sockets = [socket.socket() for _ in range(count)]
    for each in sockets:
        each.bind(("127.0.0.1", 0))
    ports = [each.getsockname()[1] for each in sockets]
    for each in sockets:
        each.close()
    return ports


def wait_for(what: str, is_so: Callable[[], bool], patience: int = PATIENCE) -> None:
    """Waits until this is so."""
    end = time.monotonic() + patience
    while not is_so():
        if time.monotonic() > end:
            raise Wrong(f"Slurm: {what} did not come within {patience} seconds")
        time.sleep(0.2)


class Slurm:
    """The daemons, as a context: they are killed when it ends."""

    def __init__(self, folder: str) -> None:
        self.folder = pathlib.Path(folder).resolve()
        self.environment = {**os.environ, "PATH": PATH, "SLURM_CONF": str(self.folder / "slurm.conf")}
        self.daemons: dict[str, subprocess.Popen[bytes]] = {}

    def start(self, name: str, command: Sequence[str]) -> None:
        """Starts a daemon in the foreground, so that its number is known."""
        with open(self.folder / f"{name}.log", "wb") as log:
            self.daemons[name] = subprocess.Popen(
                command, stdin=subprocess.DEVNULL, stdout=log, stderr=log, env=self.environment
            )

    def answer_of(self, command: Sequence[str]) -> str:
        """What a command of Slurm's prints."""
        return subprocess.run(
            command, capture_output=True, env=self.environment, check=False, timeout=PATIENCE
        ).stdout.decode()

    def configure(self) -> None:
        self.folder.mkdir()
        for name in ["state", *NODES]:
            (self.folder / name).mkdir()
        key = self.folder / "munge.key"
        key.touch(mode=0o600)
        key.write_bytes(os.urandom(128))
        host = socket.gethostname().split(".")[0]
        text = CONFIGURATION.format(
            host=host, ports=free_ports(3), folder=self.folder, user=getpass.getuser(), lost=LOST, expired=EXPIRED
        )
        (self.folder / "slurm.conf").write_text(text, encoding="ascii")

    def idle(self) -> int:
        return self.answer_of(["sinfo", "-h", "-N", "-o", "%T"]).split().count("idle")

    def __enter__(self) -> Slurm:
        self.configure()
        files = [
            f"--{word}={self.folder}/munge.{word.removesuffix('-file')}"
            for word in ["key-file", "socket", "pid-file", "log-file", "seed-file"]
        ]
        self.start("munged", ["munged", "--foreground", "--force", *files])
        try:
            wait_for("munged", (self.folder / "munge.socket").exists, 30)
            self.start("slurmctld", ["slurmctld", "-D"])
            for node in NODES:
                self.start(node, ["slurmd", "-D", "-N", node])
            wait_for("an idle node twice", lambda: self.idle() == 2, 120)
        except Wrong as wrong:
            logs = [(self.folder / f"{name}.log").read_text(errors="replace") for name in self.daemons]
            self.__exit__()
            raise Unstarted(f"{wrong}: {[log.splitlines()[-1:] for log in logs]}") from wrong
        return self

    def __exit__(self, *_: object) -> None:
        self.answer_of(["scancel", "--user", getpass.getuser()])
        end = time.monotonic() + 10
        while self.has_jobs() and time.monotonic() < end:
            time.sleep(0.2)
        for daemon in reversed(self.daemons.values()):
            daemon.terminate()
        for daemon in self.daemons.values():
            try:
                daemon.wait(30)
            except subprocess.TimeoutExpired:
                daemon.kill()

    def has_jobs(self) -> bool:
        return bool(self.answer_of(["squeue", "-h"]).strip())

    def wait(self) -> None:
        """Waits until no job is left."""
        wait_for("the end of all jobs", lambda: not self.has_jobs())

    def lose(self, node: str, task: int) -> None:
        """The node daemon is lost, with its task of this number and all that this runs under."""
        self.daemons[node].kill()
        numbers = [task]
        while (pathlib.Path(f"/proc/{numbers[-1]}/comm")).read_text().strip() != "slurmstepd":
            numbers.append(parent_of(numbers[-1]))
        for number in reversed(numbers):
            os.kill(number, signal.SIGKILL)


def parent_of(number: int) -> int:
    """The process that started this one."""
    status = pathlib.Path(f"/proc/{number}/status").read_text()
    parent = int(status.split("\nPPid:")[1].split()[0])
    if parent <= 1:
        raise Wrong("the task of a node does not run under Slurm")
    return parent
