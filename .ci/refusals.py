"""What rt ci says of each must-fail edit: whether it is refused because a fact fails."""

import re

EDIT = re.compile(r"rt: must-fail (\S+)\.edit: (.*)")
REFUSED = "refused, as it must be"


def said_in(log):
    """What the log of rt ci says of each edit, by CRATE/NAME."""
    said = {}
    for line in log.split("\n"):
        found = EDIT.fullmatch(line)
        if found:
            said.setdefault(found.group(1), []).append(found.group(2))
    return said


def refusal(said):
    """Of what rt ci says of an edit: what is wrong with the refusal, or None.

    rt counts as refused also what it refuses for a name that the edit took away from a proof, which a right program without that
    name would be as well, and what its prover has no verdict on for a limit of its own. It says so in brackets. Neither is a
    fact that fails."""
    if not said:
        return "it was not judged"
    if len(said) > 1:
        return f"it was judged {len(said)} times"
    if not said[0].startswith(REFUSED):
        return said[0]
    why = said[0].removeprefix(REFUSED)
    if why.startswith(" (only "):
        return f"refused{why}"
    if not why.startswith(": "):
        return "refused without an error"
    return None
