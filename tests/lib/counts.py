"""The last line of a test, which counts."""


def print_counts(name, passed, failed, skipped=0):
    """Prints the counts; the exit status."""
    print(f"{name}: {passed} passed, {failed} failed" + (f", {skipped} skipped" if skipped else ""), flush=True)
    return 0 if passed and not failed else 1
