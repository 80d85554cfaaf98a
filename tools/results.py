"""The results of the checks of a tool: what is wrong, and the last line, 'N passed, M failed'."""


def report(checks):
    """Prints the faults among the results of checks, and the last line, and returns the status. A check that passes has no fault: `""`."""
    passed = failed = 0
    for fault in checks:
        if fault:
            print(fault)
        passed, failed = passed + (not fault), failed + bool(fault)
    print(f"{passed} passed, {failed} failed")
    return 1 if failed or not passed else 0
