"""How long `mg migrate` takes beside `cp` of the same files, and its peak of memory.

    python3 bench/migrate.py bin/mg [MEGABYTES]

The set is of version 1, with a true head and true places of 1,048,576 documents; the other parts
are random bytes, which migrate copies as they are: it never looks into them. Each of five turns runs
`cp` and then `migrate`, over files that were just read; the best of each is told. The program `time`
is wanted, as by `make bench`.
"""

import os
import pathlib
import subprocess
import sys
import tempfile
import time

DOCUMENTS = 1 << 20
# The parts that are copied, and how much of the whole each takes.
SHARES = {"text": 50, "post": 20, "run": 18, "lex": 5, "skip": 3, "weights": 2, "words": 1, "nonwords": 0.5, "lexat": 0.5}
TURNS = 5


def make_set(folder, megabytes):
    """The files of a set under `old`."""
    sizes = {part: int(megabytes * 10_000 * share) for part, share in SHARES.items()}
    for part, size in sizes.items():
        (folder / f"old.{part}").write_bytes(os.urandom(size))
    places = b"".join((number * 64).to_bytes(4, "big") for number in range(DOCUMENTS + 1))
    (folder / "old.places").write_bytes(places)
    fields = [(DOCUMENTS, 4), (1, 4), (1, 4), (1, 4), (1_398_101, 4), (0, 4), (1 << 28, 4), (1, 4), (1, 4), (sizes["text"], 4), (sizes["post"], 8), (1, 8)]
    (folder / "old.head").write_bytes(b"MGROWv1\n" + b"".join(value.to_bytes(width, "big") for value, width in fields))
    return sorted(path.name for path in folder.iterdir())


def timed(words, folder):
    """Seconds from start to end, of the processor, and the peak in kilobytes.

    The program `time` starts the command: what Python starts itself would count as having Python's memory.
    """
    begun = time.monotonic()
    format = ["/usr/bin/time", "--quiet", "--format", "%U %S %M", "--output", "told"]
    subprocess.run([*format, *words], cwd=folder, stdout=subprocess.DEVNULL, check=True)
    whole = time.monotonic() - begun
    user, system, peak = (folder / "told").read_text().split()
    return whole, float(user) + float(system), int(peak)


def main():
    program = str(pathlib.Path(sys.argv[1]).resolve())
    megabytes = int(sys.argv[2]) if len(sys.argv) > 2 else 200
    with tempfile.TemporaryDirectory() as name:
        folder = pathlib.Path(name)
        files = make_set(folder, megabytes)
        (folder / "copy").mkdir()
        print(f"{sum((folder / file).stat().st_size for file in files)} bytes of files, load {os.getloadavg()[0]:.1f}")
        copied, migrated = [], []
        for _ in range(TURNS):
            copied.append(timed(["cp", *files, "copy"], folder))
            migrated.append(timed([program, "migrate", "old", "new"], folder))
        for told, runs in (("cp", copied), ("migrate", migrated)):
            print(f"{told}: best {min(runs)[0]:.2f} s, processor {min(run[1] for run in runs):.2f} s, peak {max(run[2] for run in runs)} KB")
        print(f"migrate takes {min(migrated)[0] / min(copied)[0]:.1f} times as long as cp")


if __name__ == "__main__":
    main()
