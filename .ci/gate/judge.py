"""Reads from the output of a check of edited text whether the function of an edit is rejected, and why."""
import re

# Errors about a missing name: such a rejection shows nothing about a contract.
GONE = r"has no field|is not in scope|has no `|was not admitted|has no function"


def reached(said):
    """Returns whether a check reached the prover."""
    return said.rstrip().split("\n")[-1].startswith(("logic=not-proved", "only="))


def proved_in(folder, goal):
    """Returns the path of the function whose goals stand in this folder of proofs. If several call each other, its name is none of
    theirs, and the goal begins with the function's own."""
    path = folder.replace("/+", "/").split("/")
    found = ["::".join(path)]
    if "/+" in folder and goal and "-" in goal:
        found.append("::".join([*path[:-1], goal.split("-")[0]]))
    return found


def judged(said):
    """Returns, by the path of a function, the goals that the check does not prove, and the errors of a proof file that names
    what the edit removed."""
    open_goals, gone = {}, {}
    for line in said.split("\n"):
        at = re.match(r"fn \w+::(\S+): (?:no proof|not proved)", line)
        search = at and re.search(r"`search` did not prove ((?:`[^`]*`(?:, )?)+)", line)
        if search:
            open_goals.setdefault(at[1], []).extend(re.findall(r"`([^`]*)`", search[1]))
        at = re.match(r"(?:\./)?proofs/(\S+)/[A-Za-z]+\.antt:\d+:\d+: error: (?:`([^`]*)`: )?(.*)", line)
        if at:
            kind = gone if re.search(GONE, at[3]) else open_goals
            for of in proved_in(at[1], at[2]):
                kind.setdefault(of, []).append(at[2] or at[3][:60])
    return open_goals, gone


def lemmas(said, text_of):
    """Returns the lemmas, by file and name, that the check does not prove; `text_of` returns a file's text. The errors of a
    definition are not among them."""
    found = []
    for line in said.split("\n"):
        at = re.match(r"(?:\./)?((?:specs/\S+|proofs/[^/\s]+)\.antt):\d+:\d+: error: `([^`]*)`: (.*)", line)
        if not at or re.search(GONE, at[3]):
            continue
        if re.search(rf"(?m)^(?:pub )?{re.escape(at[2])} : ", text_of(at[1])):
            found.append(f"{at[2]} of {at[1]}")
    return found


def verdict(edit, said):
    """Returns, for a check that tried the edit with others, whether a goal of its function is rejected, and the message. If
    not, the edit is tried alone."""
    if not reached(said):
        return False, "not reached"
    open_goals, gone = judged(said)
    if edit.of in open_goals:
        found = dict.fromkeys(open_goals[edit.of])
        proved = [goal for goal in edit.goals if goal not in found]
        return not proved, f"{'NOT REFUSED FOR ' + ', '.join(proved) + ', but ' if proved else ''}refused: {', '.join(found)}"
    return False, f"REFUSED FOR A NAME ALONE: {', '.join(gone[edit.of])}" if edit.of in gone else "NOT REFUSED"


def verdict_alone(edit, status, said, text_of):
    """Returns the verdict of an edit that was tried alone. An edit of a definition also passes if a lemma is not proved."""
    if status == 0:
        return False, "NOT REFUSED: its function is still proved"
    if not reached(said):
        errors = [line for line in said.split("\n") if ": error" in line]
        return False, f"BAD EDIT: it did not reach the prover: {errors[0][:200] if errors else said[-200:]}"
    well, text = verdict(edit, said)
    if well or edit.is_of_code():
        return well, text
    open_goals, _ = judged(said)
    goals = [goal for found in open_goals.values() for goal in found] + lemmas(said, text_of)
    return bool(goals), "refused: " + ", ".join(dict.fromkeys(goals)) if goals else f"REFUSED FOR NO GOAL: {said[-300:]}"
