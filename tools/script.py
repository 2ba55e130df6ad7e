"""The lines by which a script makes the rows of a file anew: tools/copy gives them to a run, tools/dump writes them."""

# How many rows go into a file by one commit at most: a transaction has room for 281 undo records at least.
COMMIT_ROWS = 256


def inserts_of(rows):
    """The line that inserts each row, which is a table, a key and the bytes of a value."""
    return [b"insert 1 %d %d %s" % row for row in rows]


def commits_of(inserts, count=COMMIT_ROWS):
    """The lines of each commit, so many at most."""
    return [inserts[at : at + count] for at in range(0, len(inserts), count)]
