"""mg-shards: an archive that outgrows one set or one machine is built in shards, and asked as one."""

import argparse
import concurrent.futures
import os
import resource
import shlex
import signal
import subprocess
import sys

from mg_archives.programs import find_mg
from mg_archives.refusals import USAGE, Refusal
from mg_archives.shards_archive import DAMAGED, STORE_FAILED, UNBUILT, Archive
from mg_archives.shards_ask import OUTPUT_FAILED, SESSIONS, UNWRITTEN, ask_all, guarded_output, standard_file
from mg_archives.shards_engines import ENGINE_FAILED, ENGINES, Slurm, Work
from mg_archives.shards_plan import MOST_BYTES, made_plan
from mg_archives.shards_steps import Maker, refusal_of

MOST_SHARDS = 100_000
BUDGETS = 4096, 1 << 30
# Files that a running mg takes of this program, and those that it has beside.
FILES_A_SET = 3
FILES_BESIDE = 64


def say(text):
    sys.stderr.buffer.write(b"mg-shards: " + text.encode("utf-8", "surrogateescape") + b"\n")
    sys.stderr.flush()


def build(given):
    """Cuts the collection, has the steps done that are not done, and lists the sets."""
    plan = made_plan(given.collection, given.shards, given.bytes, given.budget)
    archive = Archive(given.archive)
    archive.refuse_strangers()
    mg = find_mg(ENGINE_FAILED)
    with archive.lock(alone=True) as lock:
        archive.begin(plan)
        if archive.read("sets") is None:
            programs = os.path.abspath(sys.argv[0]), mg
            work = Work(archive, archive.pending(plan.root), programs, given.jobs, given.sshloginfile, (lock.fileno(),))
            if given.engine == "slurm":
                Slurm(work).check()
            archive.clean()
            archive.share(lock)
            if work.steps:
                ENGINES[given.engine](work)
            left = archive.pending(plan.root)
            if left:
                return tell_failed(archive, plan, left)
            archive.list_sets(archive.rows_of(plan.root))
    rows = archive.sets()
    tell([f"shards {plan.shards}", f"sets {len(rows)}", *(f"{name} {count}" for name, count in sums(rows).items())])
    return 0


def sums(rows):
    """What all sets have together."""
    return {"documents": sum(row.documents for row in rows), "bytes": sum(row.size for row in rows)}


def tell(lines):
    """Writes lines to the standard output."""
    out = standard_file(1, "wb", OUTPUT_FAILED, UNWRITTEN)
    guarded_output(out.write)("".join(f"{line}\n" for line in lines).encode())
    guarded_output(out.flush)()


def tell_failed(archive, plan, left):
    """Tells each step that failed, and answers the status of the first."""
    waiting = set(left)
    failed = [step for step in left if not waiting.intersection(step.halves)]
    told = [archive.failure(step) or (ENGINE_FAILED, f"it ended without telling why; see {archive.path('work', 'log')}") for step in failed]
    for step, (_, text) in zip(failed, told):
        say(f"{step} of {plan.shards}: {text}")
    say(f"failed {len(failed)}, waiting for these {len(left) - len(failed)}; the same command goes on, "
        f"and mg-shards step {shlex.quote(archive.folder)} {failed[0].name} does the first alone")
    return told[0][0]


def do_step(given):
    """One step alone: what the engines run."""
    archive = Archive(given.archive)
    plan = archive.plan()
    if plan is None:
        raise Refusal(UNBUILT, f"{archive.folder}: no archive was begun here")
    step = plan.step_named(given.step)
    if step is None:
        raise Refusal(USAGE, f"{given.step}: the archive has {plan.shards} shards and no such step")
    if archive.read("sets") is not None:
        return 0
    with archive.lock(alone=False):
        try:
            Maker(archive, plan, find_mg(ENGINE_FAILED)).do(step)
        except OSError as error:
            refusal = refusal_of_store(error)
            archive.fail(step, refusal)
            raise refusal from error
        except Refusal as refusal:
            archive.fail(step, refusal)
            raise
    return 0


def refusal_of_store(error):
    where = f"{error.filename}: " if error.filename else ""
    return Refusal(STORE_FAILED, f"{where}{error.strerror}")


def ask(given):
    """A session; over one set it is mg's own."""
    archive, mg = Archive(given.archive), find_mg(ENGINE_FAILED)
    rows = archive.sets()
    bases = [archive.path(row.base) for row in rows]
    if len(bases) == 1:
        os.execv(mg, [mg, given.tool, bases[0]])
    allow_files(FILES_A_SET * len(bases) + FILES_BESIDE)
    befores = [sum(row.documents for row in rows[:place]) for place in range(len(rows))]
    ask_all(mg, given.tool, list(zip(bases, befores)))
    return 0


def allow_files(count):
    """Has the system allow so many open files, as far as it does."""
    soft, hard = resource.getrlimit(resource.RLIMIT_NOFILE)
    if soft < count:
        resource.setrlimit(resource.RLIMIT_NOFILE, (count if hard == resource.RLIM_INFINITY else min(count, hard), hard))


def check(given):
    """Checks each set, some of them side by side, and tells what the whole has."""
    archive, mg = Archive(given.archive), find_mg(ENGINE_FAILED)
    rows = archive.sets()

    def checked(row):
        return subprocess.run([mg, "check", archive.path(row.base)], stdin=subprocess.DEVNULL, capture_output=True)

    status = 0
    with concurrent.futures.ThreadPoolExecutor(given.jobs or len(os.sched_getaffinity(0))) as pool:
        for row, run in zip(rows, pool.map(checked, rows)):
            if run.returncode:
                refusal = refusal_of(run)
                say(f"{archive.path(row.base)}: {refusal.text}")
                status = status or refusal.status
            elif run.stdout != b"stands %d documents %d bytes\n" % row[:2]:
                say(f"{archive.path(row.base)}: it stands, but not for what the list tells")
                status = status or DAMAGED
    if not status:
        tell(["stands " + " ".join(f"{count} {name}" for name, count in sums(rows).items())])
    return status


def decode(given):
    """Prints the collection, a set behind the other."""
    archive, mg = Archive(given.archive), find_mg(ENGINE_FAILED)
    for row in archive.sets():
        run = subprocess.run([mg, "decode", archive.path(row.base)], stdin=subprocess.DEVNULL, stderr=subprocess.PIPE)
        if run.returncode:
            refusal = refusal_of(run)
            raise Refusal(refusal.status, f"{archive.path(row.base)}: {refusal.text}")
    return 0


class Parser(argparse.ArgumentParser):
    """Words that are not understood have status 1, as those of mg."""

    def error(self, message):
        self.print_usage(sys.stderr)
        self.exit(USAGE, f"{self.prog}: {message}\n")


def number_between(low, high):
    def number(text):
        if not text.isascii() or not text.isdigit() or not low <= int(text) <= high:
            raise argparse.ArgumentTypeError(f"{text} is no number from {low} to {high}")
        return int(text)

    return number


def parser():
    """The words of the command line."""
    whole = Parser(prog="mg-shards", allow_abbrev=False, description="Builds an archive in shards, and asks all of its sets at once.")
    tools = whole.add_subparsers(required=True, metavar="TOOL", parser_class=Parser)

    def tool(name, does, text):
        one = tools.add_parser(name, help=text, description=text, allow_abbrev=False)
        one.set_defaults(does=does, tool=name)
        return one

    one = tool("build", build, "build the archive of a collection, or go on with it")
    one.add_argument("collection", metavar="COLLECTION")
    one.add_argument("archive", metavar="ARCHIVE")
    size = one.add_mutually_exclusive_group(required=True)
    size.add_argument("--shards", metavar="N", type=number_between(1, MOST_SHARDS), help="at most so many shards of about as many bytes each")
    size.add_argument("--bytes", metavar="B", type=number_between(1, MOST_BYTES), help="shards of at most so many bytes")
    one.add_argument("--engine", choices=ENGINES, default="make", help="what runs the steps (make)")
    one.add_argument("--jobs", metavar="J", type=number_between(1, MOST_SHARDS), help="steps at a time, of parallel on each host")
    one.add_argument("--sshloginfile", metavar="FILE", help="the hosts of GNU parallel")
    one.add_argument("--budget", metavar="BYTES", type=number_between(*BUDGETS), help="the pool of each build")
    one = tool("step", do_step, "do one step: a shard by its number, or a merge such as 1-4")
    one.add_argument("archive", metavar="ARCHIVE")
    one.add_argument("step", metavar="STEP")
    for name in SESSIONS:
        tool(name, ask, f"answer the lines of mg {name} over all sets").add_argument("archive", metavar="ARCHIVE")
    one = tool("check", check, "check all sets")
    one.add_argument("archive", metavar="ARCHIVE")
    one.add_argument("--jobs", metavar="J", type=number_between(1, MOST_SHARDS), help="sets at a time")
    tool("decode", decode, "print the collection").add_argument("archive", metavar="ARCHIVE")
    return whole


def main():
    signal.signal(signal.SIGTERM, lambda *_: sys.exit(128 + signal.SIGTERM))
    whole = parser()
    given = whole.parse_args()
    if getattr(given, "sshloginfile", None) and given.engine != "parallel":
        whole.error("--sshloginfile is for --engine parallel")
    try:
        return given.does(given)
    except Refusal as refusal:
        say(refusal.text)
        return refusal.status
    except KeyboardInterrupt:
        return 128 + signal.SIGINT
    except OSError as error:
        refusal = refusal_of_store(error)
        say(refusal.text)
        return refusal.status
