"""The last line of a test: 'N passed, M failed'."""


def tally(outcomes):
    """Prints the line; what it answers is the status to end with."""
    failed = outcomes.count(False)
    print("%d passed, %d failed" % (len(outcomes) - failed, failed))
    return 1 if failed else 0
