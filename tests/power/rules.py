"""The order of calls that the rules want, and recordings in which one of them is broken: flushes are left out, or come too late."""
from power import trace

RULES = {"log": "the log is not flushed before the store's file is written",
         "store": "the store's file is not flushed before the log begins again",
         "header": "the log's new header is not flushed",
         "fsync": "nothing is flushed for an fsync",
         "time": "nothing is flushed after five seconds",
         "contents": "a commit is written and flushed, and then the contents that it lists",
         "reuse": "contents are written where others were, and then the commit is flushed that takes these off the list",
         "end": "the data file is cut, and then the commit is flushed that takes its last contents off the list"}

SPOILING = ("contents", "reuse", "end")  # they lose contents that are listed, and no steps


class Flush:
    """A flush among the records, and what comes after it and before it."""

    def __init__(self, records, at):
        self.file, self.next = records[at].file, records[at + 1] if at + 1 < len(records) else None
        before = next((records[place] for place in range(at - 1, max(0, at - 4), -1) if records[place].kind == "P"), None)
        self.is_of_header = self.file == trace.LOG and before is not None and before.begins_log()

    def is_before(self, file, kinds):
        return self.file == trace.LOG and self.next is not None and self.next.file == file and self.next.kind in kinds

    def breaks(self, rule):
        """Whether this flush is one that the broken rule leaves out or makes later."""
        for_store, for_fsync = self.is_before(trace.STORE, "PZT"), self.is_before(trace.DEVICE, "Y")
        for_end, for_contents = self.is_before(trace.CONTENTS, "T"), self.is_before(trace.CONTENTS, "PT")
        return {"log": for_store, "store": self.file == trace.STORE, "header": self.is_of_header, "fsync": for_fsync,
                "time": self.file == trace.LOG and not (for_store or for_fsync or for_contents or self.is_of_header),
                "contents": self.file == trace.CONTENTS, "reuse": for_contents, "end": for_end, "volatile": True}.get(rule, False)


def may_follow(record, rule):
    """Whether a flush that comes too late comes after this record too. So only one rule is broken: the log is flushed in time for an
    fsync and for the store's file."""
    if rule not in SPOILING:
        return True
    if rule == "contents":
        return record.file == trace.LOG and record.kind != "B"
    if record.file == trace.CONTENTS:
        return record.kind in ("FTP" if rule == "reuse" else "FT")
    return rule == "reuse" and record.file == trace.LOG and record.kind in "PZ" and not record.begins_log()


def without_cut(record):
    """Space is free again once the file is cut. So `reuse` is only seen where the cut isn't made."""
    is_cut = record.file == trace.CONTENTS and record.kind == "T"
    return trace.Record("t", record.file, record.at, record.time, b"") if is_cut else record


class Broken:
    """A recording in which a rule is broken. `marks` are the places where that can be seen, if they are known."""

    def __init__(self, records, rule):
        self.rule, self.records, self.marks, self.held, self.since = rule, [], [], None, 0
        for at, record in enumerate(records):
            if record.kind == "F" and Flush(records, at).breaks(rule):
                self.hold(record)
                continue
            if self.held and not may_follow(record, rule):
                self.release()
            self.records.append(without_cut(record) if rule == "reuse" else record)

    def hold(self, flush):
        if not self.held:
            self.since = len(self.records)
        self.held = flush

    def release(self):
        late = range(self.since, len(self.records))
        if self.rule != "reuse" or any(self.records[at].kind == "t" for at in late):
            self.marks += late
        self.records.append(trace.Record("F", self.held.file, self.records[-1].time, self.records[-1].time, b""))
        self.held = None
