"""Slurm as the engine of mg-shards: a real one, of Debian's packages, on the loopback address, with two nodes on this machine.

It has its own munged, configuration and folders, so that a Slurm that the machine has is left alone. Only processes that
were begun here are ended, by their numbers.
"""

import contextlib
import os
import re
import shutil
import signal
import socket
import subprocess
import tempfile
import time

from kinds import Draws, mail
from shards import FAILING, same_parts
from shards_asked import Tool

PACKAGES = ["slurm-wlm", "munge"]
PROGRAMS = ["slurmctld", "slurmd", "sbatch", "squeue", "scontrol", "munged"]
NODES = ["first", "second"]
CONFIGURATION = """ClusterName=shards
SlurmctldHost={host}(127.0.0.1)
AuthType=auth/munge
AuthInfo=socket={work}/munge/socket
SlurmUser=root
SlurmdUser=root
StateSaveLocation={work}/state
SlurmdSpoolDir={work}/spool.%n
SlurmctldPidFile={work}/pid.slurmctld
SlurmdPidFile={work}/pid.%n
SlurmctldLogFile={work}/log.slurmctld
SlurmdLogFile={work}/log.%n
ProctrackType=proctrack/pgid
TaskPlugin=task/none
SelectType=select/cons_tres
SelectTypeParameters=CR_CPU
JobAcctGatherType=jobacct_gather/none
ReturnToService=2
MpiDefault=none
MaxArraySize=6
SlurmctldPort={ports[0]}
NodeName=first NodeHostname={host} NodeAddr=127.0.0.1 Port={ports[1]} CPUs=1 State=UNKNOWN
NodeName=second NodeHostname={host} NodeAddr=127.0.0.1 Port={ports[2]} CPUs=1 State=UNKNOWN
PartitionName=all Nodes=first,second Default=YES MaxTime=INFINITE State=UP
"""


def lacking():
    """Why there is no Slurm here, once its packages were asked for; nothing where there is one."""
    path = os.environ["PATH"] + ":/usr/sbin:/sbin"
    missing = [name for name in PROGRAMS if not shutil.which(name, path=path)]
    if missing and os.geteuid() == 0 and shutil.which("apt-get"):
        words = ["apt-get", "-o", "DPkg::Lock::Timeout=300", "install", "-y", "--no-install-recommends", *PACKAGES]
        subprocess.run(["apt-get", "update"], stdin=subprocess.DEVNULL, capture_output=True)
        subprocess.run(words, stdin=subprocess.DEVNULL, capture_output=True, env={**os.environ, "DEBIAN_FRONTEND": "noninteractive"})
        missing = [name for name in PROGRAMS if not shutil.which(name, path=path)]
    if missing:
        return f"{', '.join(missing)} cannot be installed"
    return None if os.geteuid() == 0 else "it is not run as root"


def free_ports(count):
    """Ports of the loopback address that nobody listens on."""
    with contextlib.ExitStack() as stack:
        sockets = [stack.enter_context(socket.socket()) for _ in range(count)]
        for one in sockets:
            one.bind(("127.0.0.1", 0))
        return [one.getsockname()[1] for one in sockets]


def waited(what, seconds=300):
    """Waits till something holds; tells whether it did in time."""
    end = time.monotonic() + seconds
    while not what():
        if time.monotonic() > end:
            return False
        time.sleep(0.1)
    return True


class Cluster:
    """A controller and two nodes of Slurm on this machine."""

    def __init__(self, work):
        self.work = work
        self.environment = {**os.environ, "SLURM_CONF": f"{work}/slurm.conf", "PATH": os.environ["PATH"] + ":/usr/sbin:/sbin"}

    def run(self, *words):
        return subprocess.run(words, env=self.environment, cwd=self.work, capture_output=True, text=True, timeout=300)

    def begin(self):
        """Begins all of it; what failed, or nothing."""
        for name in ["munge", "state", *(f"spool.{node}" for node in NODES)]:
            os.mkdir(f"{self.work}/{name}")
        os.chmod(self.work, 0o755)
        with open(f"{self.work}/munge/key", "wb") as key:
            key.write(os.urandom(1024))
        os.chmod(f"{self.work}/munge/key", 0o400)
        for path in ["munge", "munge/key"]:
            shutil.chown(f"{self.work}/{path}", "munge", "munge")
        host = self.run("hostname", "-s").stdout.strip()
        with open(f"{self.work}/slurm.conf", "w") as file:
            file.write(CONFIGURATION.format(host=host, work=self.work, ports=free_ports(3)))
        munge = [f"--{name}-file={self.work}/munge/{name}" for name in ("key", "pid", "log", "seed")]
        for words in [["runuser", "-u", "munge", "--", "munged", f"--socket={self.work}/munge/socket", *munge], ["slurmctld"],
                      *(["slurmd", "-N", node] for node in NODES)]:
            run = self.run(*words)
            if run.returncode:
                return f"{' '.join(words)}: {run.stderr}"
        return None if waited(lambda: self.states() == ["idle", "idle"]) else f"the nodes are {self.states()}"

    def states(self):
        return self.run("sinfo", "-h", "-N", "-o", "%t").stdout.split()

    def end(self):
        """Ends the processes whose numbers they wrote."""
        for name in ["pid.second", "pid.first", "pid.slurmctld", "munge/pid"]:
            path = f"{self.work}/{name}"
            with contextlib.suppress(OSError, ValueError):
                with open(path) as file:
                    number = int(file.read())
                os.kill(number, signal.SIGTERM)
                waited(lambda: not os.path.exists(path), 20)

    def jobs(self, *options):
        return self.run("squeue", "-h", *options).stdout.split("\n")[:-1]


def drained(suite, tool, cluster):
    """Eight shards as arrays, of which one node builds the rest when the other is drained."""
    suite.file("text", mail(Draws(8)))
    suite.run(["build", "text", "whole", "--budget", "4096"])
    words = [tool.launcher, "build", "text", "shards", "--shards", "8", "--budget", "4096", "--engine", "slurm"]
    # Each run of mg takes at least a second, so that there is a middle.
    tool.put_mg('#!/bin/sh\nsleep 1\necho "$SLURMD_NODENAME ${SLURM_ARRAY_TASK_ID:-merge} $*" >> "$RUNS"\nexec "$REAL" "$@"\n')
    tool.environment["RUNS"] = str(tool.folder / "runs")
    process = subprocess.Popen(words, cwd=suite.folder, env=tool.environment, stdout=subprocess.PIPE, stderr=subprocess.PIPE)
    both = waited(lambda: sorted(cluster.jobs("-t", "R", "-o", "%N")) == NODES)
    suite.check("Slurm: both nodes build", both, True)
    drain = cluster.run("scontrol", "update", "NodeName=second", "State=DRAIN", "Reason=test")
    waiting = cluster.jobs("-t", "PD", "-r", "-o", "%i")
    suite.check("Slurm: a node is drained in the middle", (drain.returncode, len(waiting) > 7), (0, True))
    out, told = process.communicate(timeout=1800)
    suite.check("Slurm: a build", (process.returncode, out, told), (0, b"shards 8\nsets 1\ndocuments 60\nbytes %d\n" % (suite.folder / "text").stat().st_size, b""))
    suite.check("Slurm: parts that differ", same_parts(suite.folder / "shards" / "1-8" / "set", suite.folder / "whole"), [])
    lines = [line.split(" ", 2) for line in (tool.folder / "runs").read_text().splitlines()]
    ran = [node for node, _, words in lines if words[:6] in ("build ", "merge ")]
    suite.check("Slurm: runs of mg", (len(ran), len([task for _, task, _ in lines if task != "merge"])), (15, 8))
    suite.check("Slurm: what the drained node ran", (0 < ran.count("second") <= 2, cluster.states()[1][:5]), (True, "drain"))
    cluster.run("scontrol", "update", "NodeName=second", "State=RESUME")


def failing(suite, tool, cluster):
    """A shard that failed is told, what waits for it leaves the queue, and the same command goes on."""
    tool.put_mg(FAILING)
    tool.environment |= {"RUNS": str(tool.folder / "runs"), "FAILS": "/new.7."}
    got = tool.build("text", "shards", "--shards", "8", "--engine", "slurm")
    told = b"mg-shards: shard 7 of 8: mg: the store failed\nmg-shards: failed 1, waiting for these 3;"
    suite.check("Slurm: a shard that failed", (got[0], got[2][: len(told)]), (2, told))
    suite.check("Slurm: nothing waits", cluster.jobs(), [])
    tool.environment["FAILS"] = "nothing of this"
    (tool.folder / "runs").write_text("")
    suite.check("Slurm: the same command goes on", tool.run(["build", "text", "shards", "--budget", "4096", "--jobs", "1", "--shards", "8", "--engine", "slurm"])[::2], (0, b""))
    runs = re.findall(r"(?<=/work/new\.)[^.]*(?=\.\S*/set$)", (tool.folder / "runs").read_text(), re.M)
    suite.check("Slurm: what was not done", sorted(runs), ["1-8", "5-8", "7", "7-8"])
    suite.check("Slurm: parts that differ", same_parts(suite.folder / "shards" / "1-8" / "set", suite.folder / "whole"), [])


def stopped(suite, tool, cluster):
    """A command that is ended takes its jobs out of the queue."""
    shutil.rmtree(suite.folder / "shards")
    tool.put_mg("#!/bin/sh\nexec sleep 600\n")
    words = [tool.launcher, "build", "text", "shards", "--shards", "8", "--engine", "slurm"]
    process = subprocess.Popen(words, cwd=suite.folder, env=tool.environment, stdout=subprocess.PIPE, stderr=subprocess.PIPE)
    suite.check("Slurm: jobs are in the queue", waited(lambda: len(cluster.jobs("-r")) == 15), True)
    process.send_signal(signal.SIGTERM)
    process.communicate(timeout=300)
    suite.check("Slurm: jobs have left the queue", (waited(lambda: not cluster.jobs()), process.returncode), (True, 143))


def slurm(suite):
    """All of it over one cluster, or a line that tells why there is none."""
    lack = lacking()
    if lack:
        print(f"SKIPPED Slurm: {lack}")
        return
    with tempfile.TemporaryDirectory() as work:
        cluster = Cluster(work)
        try:
            failed = cluster.begin()
            suite.check("Slurm begins", failed, None)
            if failed:
                return
            tool = Tool(suite)
            tool.environment |= cluster.environment | tool.environment | {"PATH": cluster.environment["PATH"]}
            for part in (drained, failing, stopped):
                part(suite, tool, cluster)
        finally:
            cluster.end()


PARTS = []
SLOW = [slurm]
