"""Engines that run the steps of an archive: make, GNU parallel, and Slurm.

Each runs `mg-shards step ARCHIVE STEP` for every step that is not done, a merge behind the steps that it is made of. What
became of a step is told by the archive's folder, so that an engine has nothing to tell.
"""

import contextlib
import dataclasses
import hashlib
import os
import re
import shlex
import subprocess
import sys
import time

from mg_archives.refusals import Refusal
from mg_archives.shards_archive import BUSY

ENGINE_FAILED = 21
# The most tasks of an array of Slurm where its configuration says nothing.
ARRAY_SIZE = 1001
# Seconds between looks at what is done, and at the queue of Slurm: at first, and at most.
LOOK_EVERY = 2
SHORTEST_WAIT = 0.5
LONGEST_WAIT = 15
# How often in a row the queue may not be told before the jobs are given up.
MOST_SILENCES = 40


@dataclasses.dataclass
class Work:
    """What an engine is to do: the steps that are not done, by this program and this mg, with at most so many jobs."""

    archive: object
    steps: list
    programs: tuple
    jobs: int | None
    hosts: str | None
    held: tuple

    def command(self):
        """The words of a shell before the name of a step."""
        launcher, mg = self.programs
        return shlex.join(["env", f"MG={mg}", launcher, "step", self.archive.folder])

    def progress(self, ends=False):
        """Tells in a terminal how many steps are done, in a line that is gone in the end."""
        if sys.stderr.isatty():
            done = len(self.steps) - len(self.archive.pending(self.steps[-1]))
            sys.stderr.write("\r\033[K" + ("" if ends else f"steps {done} of {len(self.steps)}"))
            sys.stderr.flush()

    def run(self, words, **streams):
        """Runs a program that holds the archive's lock too, and ends it where this program is ended."""
        try:
            process = subprocess.Popen(words, pass_fds=self.held, **streams)
        except FileNotFoundError as error:
            raise Refusal(ENGINE_FAILED, f"{words[0]} is not installed") from error
        with process:
            try:
                while process.poll() is None:
                    self.progress()
                    with contextlib.suppress(subprocess.TimeoutExpired):
                        process.wait(LOOK_EVERY)
                return process.returncode
            except BaseException:
                process.terminate()
                raise
            finally:
                self.progress(ends=True)

    def log(self, name):
        """A file for what an engine says."""
        return open(self.archive.path("work", "log", name), "wb")

    def engine_refusal(self, name):
        with open(self.archive.path("work", "log", name), errors="replace") as file:
            told = file.read().strip().splitlines()
        return Refusal(ENGINE_FAILED, f"{name}: {told[-1] if told else 'it failed'}")


def run_make(work):
    """One makefile of all steps. A file that is there is not made again, whatever its time."""
    names = " ".join(step.name for step in work.steps)
    rules = [f"all: {names}\n.PHONY: all\n.PRECIOUS: {names}\n"]
    listed = set(work.steps)
    for step in work.steps:
        before = " ".join(half.name for half in step.halves if half in listed)
        rules.append(f"{step.name}:{' | ' + before if before else ''}\n\t@{recipe(work)} $@\n")
    work.archive.write("\n".join(rules), "work", "Makefile")
    environment = {name: value for name, value in os.environ.items() if name not in ("MAKEFLAGS", "MAKELEVEL", "MFLAGS")}
    jobs = str(work.jobs or len(os.sched_getaffinity(0)))
    words = ["make", "-k", "-s", "-j", jobs, "-C", work.archive.path("work", "done"), "-f", "../Makefile", "all"]
    with work.log("make") as log:
        work.run(words, stdin=subprocess.DEVNULL, stdout=log, stderr=log, env=environment)


def recipe(work):
    return work.command().replace("$", "$$")


def levels(steps):
    """The steps in lists, each of which needs only steps of the lists before it."""
    level_of, found = {}, []
    for step in steps:
        level = 1 + max((level_of.get(half, -1) for half in step.halves), default=-1)
        level_of[step] = level
        found += [[]] * (level == len(found))
        found[level] = [*found[level], step]
    return found


def run_parallel(work):
    """A run of GNU parallel for each level of the tree."""
    words = ["parallel", "-0", "--halt", "never"]
    words += ["--jobs", str(work.jobs)] if work.jobs else []
    words += ["--sshloginfile", os.path.abspath(work.hosts)] if work.hosts else []
    archive = work.archive
    for level in levels(work.steps):
        ready = [step for step in level if all(archive.rows_of(half) is not None for half in step.halves)]
        commands = "".join(f"{work.command()} {step.name}\0" for step in ready).encode("utf-8", "surrogateescape")
        if not ready:
            return
        with work.log("parallel") as log:
            status = run_given(work, words, commands, log)
        # Up to 101 it tells how many jobs failed, which their steps told.
        if status > 101:
            raise work.engine_refusal("parallel")


def run_given(work, words, given, log):
    """Runs a program with this input."""
    with open(work.archive.path("work", "commands"), "w+b") as file:
        file.write(given)
        file.seek(0)
        return work.run(words, stdin=file, stdout=log, stderr=log)


def ranges(numbers):
    """Rising numbers as Slurm writes them, such as 1-3,7."""
    found = []
    for number in numbers:
        if found and found[-1][1] == number - 1:
            found[-1][1] = number
        else:
            found.append([number, number])
    return ",".join(str(low) if low == high else f"{low}-{high}" for low, high in found)


class Slurm:
    """The jobs of an archive in Slurm: arrays of shards, and a job a merge, which waits for what it is made of."""

    def __init__(self, work):
        self.work = work
        digest = hashlib.sha256(os.fsencode(work.archive.folder)).hexdigest()
        self.name = f"mg-shards-{digest[:16]}"
        self.ids = []
        self.job_of = {}

    def told(self, *words):
        """What a command of Slurm prints."""
        try:
            run = subprocess.run(words, stdin=subprocess.DEVNULL, capture_output=True, text=True, pass_fds=self.work.held)
        except FileNotFoundError as error:
            raise Refusal(ENGINE_FAILED, f"{words[0]} is not installed") from error
        if run.returncode:
            raise Refusal(ENGINE_FAILED, f"{words[0]}: {run.stderr.strip() or 'it failed'}")
        return run.stdout.strip()

    def queued(self):
        """The jobs of this archive that have not ended."""
        return self.told("squeue", "-h", f"--name={self.name}", "-o", "%i").split()

    def submit(self, task, *options):
        """Submits a job, and answers its number."""
        log = self.work.archive.path("work", "log").replace("%", "%%")
        words = ["sbatch", "--parsable", f"--job-name={self.name}", "--requeue", f"--output={log}/slurm-%j", "--kill-on-invalid-dep=yes"]
        number = self.told(*words, *options, "--wrap", f"exec {self.work.command()} {task}").partition(";")[0]
        self.ids.append(number)
        return number

    def array_size(self):
        told = re.search(r"^MaxArraySize\s*=\s*(\d+)", self.told("scontrol", "show", "config"), re.M)
        return int(told[1]) if told else ARRAY_SIZE

    def submit_shards(self):
        shards = [step.first for step in self.work.steps if step.is_shard]
        size = self.array_size()
        most = f"%{self.work.jobs}" if self.work.jobs else ""
        for start in sorted({number // size * size for number in shards}):
            inside = [number - start for number in shards if start <= number < start + size]
            job = self.submit(f"$(({start} + SLURM_ARRAY_TASK_ID))", f"--array={ranges(inside)}{most}")
            self.job_of |= {start + index: f"{job}_{index}" for index in inside}

    def submit_merges(self):
        for step in self.work.steps:
            if step.is_shard:
                continue
            jobs = [self.job_of[key] for key in map(key_of, step.halves) if key in self.job_of]
            self.job_of[key_of(step)] = self.submit(step.name, *([f"--dependency=afterok:{':'.join(jobs)}"] if jobs else []))

    def wait(self):
        """Waits till no job is in the queue. A controller that does not answer for a while is asked again."""
        wait, silences = SHORTEST_WAIT, 0
        while True:
            try:
                if not self.queued():
                    return
                silences = 0
            except Refusal:
                silences += 1
                if silences > MOST_SILENCES:
                    raise
            self.work.progress()
            time.sleep(wait)
            wait = min(2 * wait, LONGEST_WAIT)

    def check(self):
        queued = self.queued()
        if queued:
            raise Refusal(BUSY, f"{self.work.archive.folder}: its jobs {' '.join(queued)} are in Slurm's queue; wait, or scancel them")

    def run(self):
        try:
            self.submit_shards()
            self.submit_merges()
            self.wait()
        except BaseException:
            if self.ids:
                subprocess.run(["scancel", *self.ids], stdin=subprocess.DEVNULL, stderr=subprocess.DEVNULL)
            raise
        finally:
            self.work.progress(ends=True)


def key_of(step):
    """A shard's number, or the name of a merge."""
    return step.first if step.is_shard else step.name


ENGINES = {"make": run_make, "parallel": run_parallel, "slurm": lambda work: Slurm(work).run()}
