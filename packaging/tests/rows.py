"""Compares and counts the rows of tests."""


class LeftOut(Exception):
    """The rows of a part cannot be checked here: a program or a file is missing, or the user is not root."""


def count(parts):
    """Compares the rows of each part. Prints the rows that differ, the parts that are left out, and the
    counts. Returns the exit status, which is 1 if a row differs or a part raises another error."""
    passed = failed = 0
    for part in parts:
        try:
            for name, got, want in part:
                if got == want:
                    passed += 1
                else:
                    failed += 1
                    print("failed: %s: %r, wanted %r" % (name, got, want))
        except LeftOut as why:
            print("left out: %s: %s" % (part.__name__, why))
        except Exception as why:
            failed += 1
            print("failed: %s: what it looks for is not there: %r" % (part.__name__, why))
    print("%d rows passed, %d failed" % (passed, failed))
    return 1 if failed else 0
