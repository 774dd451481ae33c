"""Groups of edits that are tried in one check: no two edits of a group change the same function."""

# The most edits in one check, or one or two more: the memory of a check grows with the goals that it rejects.
MOST = 80


def can_join(edit, group):
    """Returns whether an edit of code changes another function and other texts than the edits of a group."""
    return all(it.is_of_code() and it.of != edit.of for it in group["edits"]) and edit.made(dict(group["texts"])) is None


def grouped(edits):
    """Returns the edits in groups: no two edits of a group change the same function or text, and an edit of a definition is
    alone. There are no more groups than these rules and MOST require, so an edit that fits only in full groups joins one."""
    groups = []
    for edit in edits:
        fits = [group for group in groups if edit.is_of_code() and can_join(edit, group)]
        with_room = [group for group in fits if len(group["edits"]) < MOST]
        if with_room or (fits and len(groups) * MOST >= len(edits)):
            group = (with_room or fits)[0]
        else:
            group = {"texts": {}, "edits": []}
            groups.append(group)
        edit.made(group["texts"])
        group["edits"].append(edit)
    return groups
