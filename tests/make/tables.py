#!/usr/bin/env python3
"""tables.py: works the last column of crates/acceptance/stdin out anew, by models that know nothing of the program, and
writes the counts of crates/acceptance/stdout. A new case is a line of stdin with anything in its last column. The
tables once, book, book-octets, quota, events, many-events, smf-row, event-row, chf-payload, smf-payload, devices, door,
link, clock, loopback, journal, file-disk, durable and serving have answers by hand; their lines stay as they are. Those
of record are the lines that records.py makes. With --check nothing is written, and a line whose answer is another is a
failure.
"""
import sys
from pathlib import Path

import charging_trigger
import elements
import http_messages
import messages
import records
import reports
import spending
import times

FOLDER = Path(__file__).resolve().parents[2] / "crates" / "acceptance"
TABLES = (
    "time stamp request reply spend-context spend-status counters element length once record book book-octets meter quota"
    " events many-events sending smf-row event-row chf-payload smf-payload devices"
    " door link clock loopback journal file-disk durable http-request http-response http-cuts serving").split()
OPERATIONS = dict(C="create", U="update", R="release")


def time(text):
    moment = times.read_time(text)
    return "-" if moment is None else f"{moment} {times.write_time(moment)} {times.write_stamp(moment)}"


def stamp(octets):
    moment = times.read_stamp(octets)
    return "-" if moment is None else str(moment)


def request(operation, body):
    operation = OPERATIONS[operation]
    try:
        return messages.write_request(messages.read_request(operation, body.encode()))
    except messages.Fault as fault:
        return " ".join((messages.cause_of(operation, fault),) + fault.args[1:])


def reply(status, location, body):
    try:
        made, written = messages.read_reply(int(status), None if location == "-" else location, body.encode())
        return written if made is None else f"{messages.BASE}/{made} {written}"
    except messages.Fault as fault:
        return " ".join(fault.args)


MODELS = {
    "time": time, "stamp": stamp, "request": request, "reply": reply, "element": elements.element,
    "length": elements.length, "record": records.answers.get, "meter": reports.meter, "sending": charging_trigger.row,
    **spending.MODELS, "http-request": http_messages.requests, "http-response": http_messages.responses, "http-cuts": http_messages.cuts}


def main():
    lines, counts, changed = [], dict.fromkeys(TABLES, 0), 0
    for line in (FOLDER / "stdin").read_text().splitlines():
        table, *fields, wanted = line.split("\t")
        worked = MODELS[table](*fields) if table in MODELS else wanted
        if worked != wanted:
            changed += 1
            print(f"{line}\nis {worked}")
        counts[table] += 1
        lines.append("\t".join((table, *fields, worked)))
    print(f"{len(lines)} lines, {changed} changed")
    if "--check" in sys.argv:
        return 1 if changed else 0
    (FOLDER / "stdin").write_text("".join(f"{line}\n" for line in lines))
    (FOLDER / "stdout").write_text("".join(f"{table} {count}\n" for table, count in counts.items()))
    return 0


sys.exit(main())
