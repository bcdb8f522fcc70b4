"""A session over two pipes: each reply is read before the next line is written.

A session that held its replies back until its input ends would wait for ever; here it fails after some seconds.
"""

import os
import select
import subprocess
import time

from files import K

SECONDS = 20
LINES = {
    "scan": [(b"cat", b"1\n3\n= 2\n"), (b"(", b"? syntax at 1\n"), (b"!the", b"3\n= 1\n"), (b"zebra", b"= 0\n")],
    "query": [(b"cat", b"1\n3\n= 2\n"), (b"(", b"? syntax at 1\n"), (b"!the", b"3\n= 1\n"), (b"zebra", b"= 0\n")],
    "phrase": [(b"the cat", b"1 1\n= 1\n"), (b"x" * 256, b"? word too long at 0\n"), (b"cat dog", b"3 1\n= 1\n")],
    "wild": [(b"*at", b"+ cat 2\n+ sat 1\n1\n3\n= 2\n"), (b"**", b"? bad pattern at 1\n"), (b"z*", b"= 0\n")],
}


def read_reply(session):
    """The bytes up to the line that ends a reply; what came of them where nothing more comes for some seconds."""
    reply = b""
    ends = time.monotonic() + SECONDS
    while not reply.endswith(b"\n") or reply.splitlines()[-1][:2] not in (b"= ", b"? "):
        ready, _, _ = select.select([session.stdout], [], [], max(0.0, ends - time.monotonic()))
        more = os.read(session.stdout.fileno(), 4096) if ready else b""
        if not more:
            return reply
        reply += more
    return reply


def each_line_is_answered_before_the_next(suite):
    """The tools that answer lines."""
    suite.file("text", K)
    suite.check("the set of a dialog", suite.run(["build", "text", "set"])[0], 0)
    for tool, lines in LINES.items():
        name = "text" if tool == "scan" else "set"
        session = subprocess.Popen(
            [suite.program, tool, name], cwd=suite.folder, bufsize=0, stdin=subprocess.PIPE, stdout=subprocess.PIPE
        )
        for line, wanted in lines:
            session.stdin.write(line + b"\n")
            suite.check(f"{tool} answers {line[:20]!r} at once", read_reply(session), wanted)
        session.stdin.close()
        rest = session.stdout.read()
        suite.check(f"{tool} ends with its input", (session.wait(), rest), (0, b""))
        session.stdout.close()


PARTS = [each_line_is_answered_before_the_next]
