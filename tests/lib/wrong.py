"""Answers that are wrong however busy the machine is."""
import os


def report_wrong(name, what):
    """Reports one for a test, as `report_wrong` of entry.bash does: the gate doesn't try its step again."""
    print(f"{name}: WRONG: {what}", flush=True)
    if path := os.environ.get("FUSEKEEP_TEST_WRONG"):
        with open(path, "a", encoding="utf-8") as wrong:
            wrong.write(f"{name}: {what}\n")
