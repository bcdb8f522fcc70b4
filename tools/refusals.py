"""What the prover's output tells of an edit that it refuses."""

import re


def clause_of(goal):
    """The clause that a goal of the prover is of: of the function, or of one that it calls; none where it has no name."""
    before, _, clause = goal.rpartition("-clause-")
    called = before.removesuffix("-requires")
    return f"{clause} of {called}" if before != called else clause * bool(before)


def refused_at(output, edited):
    """The function that the prover's output refuses first, of those in the edited files if any, and its clauses."""
    errors = re.findall(r"^(?:\./)?proofs/(\S+)/\w+\.antt:\d+:\d+: error: `([^`]*)`", output, re.M)
    found = []
    for function, said in re.findall(r"^fn (\S+): (?:not proved|no proof)(.*)$", output, re.M):
        path = "/".join(function.split("::")[1:])
        goals = re.findall(r"`([^`]*)`", said.partition("`search` did not prove")[2])
        goals += [goal for at, goal in errors if at == path]
        if goals:
            found.append((f"src/{path.split('/')[0]}.rt" in edited, function, path, goals))
    if not found:
        return "", ""
    _, function, path, goals = max(found, key=lambda it: it[0])
    clauses = [clause_of(goal) for goal in goals]
    if not any(clauses):
        # A goal of all clauses at once is a record of them; a clause without a name has none.
        whole = re.findall(rf"^note: `returns\S*` of proofs/{path}/\S+ must prove: record {{(\w+) :", output, re.M)
        clauses = whole or ["its clause" if goals[0].startswith("returns") else goals[0]]
    return function, ", ".join(dict.fromkeys(clause for clause in clauses if clause))


def is_unread(line, edited):
    """Whether a line tells that a text of the code or of an edited file was not read: a goal that fails has a name."""
    at = re.match(r"(?:\./)?(\S+?):\d+:\d+: error: (?:(`[^`]*`): )?(.*)", line)
    if not at or not at[1].startswith(("src/", "specs/")) and at[1] not in edited:
        return False
    said = re.sub(r"`[^`]*`", "", at[3])
    return not at[2] or bool(re.search(r"is not in scope|has no field|is no name|operand is missing|expected the end|cannot continue", said))


def not_judged(status, output, edited):
    """Why a check of an edit shows nothing of a contract, None where the prover refused the crate with it or proved it."""
    lines = output.rstrip("\n").split("\n")
    unread = [line for line in lines if is_unread(line, edited)]
    if unread:
        return f"the edited text is not read: {unread[0][:200]}"
    if "Run the lower steps again" in output:
        return "the kept work of a library does not fit"
    # With status 3 the prover stopped at its limit: the crate is not proved.
    is_told = status in (0, 3) or status == 1 and lines[-1].startswith(("logic=not-proved", "only="))
    return None if is_told else "\n".join(["it did not reach the prover, which said:", *lines[:6]])
