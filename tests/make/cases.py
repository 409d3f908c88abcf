#!/usr/bin/env python3
"""cases.py FOLDER: makes cases of the built program that are too large to be kept as files, each a folder of its own with args,
stdin, stdout and status, as under tests/cli. What is due is worked out by the models beside this script.
"""
import json
import random
import sys
from pathlib import Path

from charging_function import ChargingFunction, printed
from messages import BASE
from times import write_time

MADE = Path(sys.argv[1])
HERE = Path(__file__).resolve().parents[2]
LIMITS = "limits,0,0,0,0,60,chf1,FAILOVER_SUPPORTED"
DAY = 1767312000  # 2026-01-02T00:00:00Z
RATES = [
    "group,10,volume,1000000,100000,3600,0,TERMINATE", "price,10,8,1,2,0", "price,10,20,1,1,0",
    "group,20,time,600,60,0,30,REDIRECT", "price,20,0,0,0,5", "price,20,6,0,0,7", "price,20,23,0,0,4294967296",
    "group,30,offline,1,0,0,0,RESTRICT_ACCESS", "price,30,5,3,4,6",
    "group,40,volume,1099511627776,4294967295,604800,604800,TERMINATE"
] + [f"price,40,{hour},{hour + 1},{24 - hour},0" for hour in range(24)] + [
    "group,50,volume,400,0,0,0,TERMINATE", "price,50,12,0,0,0"]
GROUPS = (10, 20, 30, 40, 50, 60)


def make(name, words, given, due, status=0):
    folder = MADE / name
    folder.mkdir(parents=True)
    for file, lines in (("args", words), ("stdin", given), ("stdout", due), ("status", [status])):
        (folder / file).write_text("".join(f"{line}\n" for line in lines))


def answer(name, setup, lines):
    make(name, ["answer"], setup + lines, printed(setup, lines))


def container(lsn, at, up, down, seconds, trigger):
    return dict(
        downlinkVolume=down, localSequenceNumber=lsn, pDUContainerInformation=dict(timeofFirstUsage=write_time(at)), time=seconds,
        triggerTimestamp=write_time(at), triggers=[dict(triggerType=trigger)], uplinkVolume=up)


def message(path, session, number, moment, entries, consumer="smf1", subscriber=None, again=False):
    body = dict(
        chargingId=session, invocationSequenceNumber=number, invocationTimeStamp=write_time(moment), multipleUnitUsage=entries,
        nfConsumerIdentification=dict(nFName=consumer), subscriberIdentifier=subscriber or f"imsi-{session}")
    if again:
        body["retransmissionIndicator"] = True
    return f"POST {BASE}{path} {json.dumps(body, separators=(',', ':'))}"


def meter_in_many_hours():
    """Three reports in each of 300 hours are one container each."""
    given, due, total = [], [], 0
    for hour in range(300):
        ups = [hour + 1, 2 * hour, 7]
        for up, second in zip(ups, (0, 1800, 3599)):
            given.append(f"{3600 * hour + second},{up},{hour},{second // 900}")
        charge = sum(ups) + 2 * 3 * hour + 3 * 5
        total += charge
        due.append(f"{hour + 1},{3600 * hour},{3600 * hour + 3599},{sum(ups)},{3 * hour},5,{charge}")
    make("meter-many-hours", ["meter", "1", "2", "3"], given, due + [f"total,{total}"])


def groups(count):
    setup = []
    for group in range(1, count + 1):
        setup += [f"group,{group},volume,1000,100,3600,0,TERMINATE", f"price,{group},0,1,2,0"]
    return setup + [LIMITS]


def operator_with_most_groups():
    """A tariff of 1,000 rating groups is read, and the next one is refused."""
    make("operator-most-groups", ["operator"], groups(1000), [])
    make("operator-one-group-more", ["operator"], groups(1001), ["error: bad input at row 2001"], 2)


def operator_with_many_accounts():
    """300 subscribers with an account each, all groups barred for each; then each row again."""
    barred, rows = " ".join(str(group) for group in range(1, 301)), []
    for i in range(1, 301):
        rows += [f"subscriber,imsi-{i},a{i},{barred}", f"topup,t{i},a{i},{i}"]
    rows += rows + ["topup,t300,a300,1", "topup,other,a301,1", "expire,3155759999"]
    make("operator-many-accounts", ["operator"], groups(300) + rows, printed(groups(300), rows))


def answer_with_many_sessions():
    """300 sessions of 100 consumers: one asks for 300 groups, one reports 300 containers at once, one has 300 Updates. Then each
    message again, releases and expiries."""
    start, lines = DAY + 11045, []
    for i in range(1, 301):
        lines += [f"subscriber,imsi-{i},a{i},", f"topup,t{i},a{i},{10 ** 9 + i}"]
    begun = len(lines)

    def give(session, number, moment, entries, release=False):
        path = "" if number == 1 else f"/{session}/{'release' if release else 'update'}"
        lines.append(message(path, session, number, moment, entries, f"smf{session % 100}"))

    def ask(group, *used):
        return dict(ratingGroup=group, requestedUnit={}, usedUnitContainer=list(used))

    for i in range(1, 301):
        give(i, 1, start + i, [ask(group) for group in (range(1, 301) if i == 1 else [i])])
    give(2, 2, start + 400, [ask(2, *(container(n, start + 399, n, 1, 0, "QUOTA_THRESHOLD") for n in range(1, 301)))])
    for n in range(2, 302):
        give(3, n, start + 400 + n, [ask(3, container(n - 1, start + 400, 5, n, 0, "QUOTA_THRESHOLD"))])
    for i in range(4, 301):
        give(i, 2, start + 800, [dict(ratingGroup=i, usedUnitContainer=[container(1, start + 799, 10, i, 0, "VOLUME_LIMIT")])])
    lines += lines[begun:]
    for i in range(4, 301, 2):
        give(i, 3, start + 900, [], release=True)
    lines += [f"close,{start + 900}", f"close,{start + 901}"]
    lines += [f"expire,{start + 1000}", f"expire,{start + 3960}", f"expire,{start + 3960}"]
    answer("answer-many-sessions", groups(300), lines)


def answer_prices_and_switches():
    """A session for each group and each side of each hour: a grant with its switch, then a container at the prices of that second."""
    setup, lines, session = RATES + [LIMITS], [], 0
    moments = [DAY + 3600 * hour + side for hour in range(24) for side in (-1, 0)] + [3155759999]
    for group in GROUPS:
        for moment in moments:
            session += 1
            up, down, seconds = (2**60, 2**60, 2**32 - 1) if session % 7 == 0 else (3, 5 * session, 7)
            used = dict(ratingGroup=group, usedUnitContainer=[container(1, moment, up, down, seconds, "FINAL")])
            lines += [
                f"subscriber,imsi-{session},a{session},", f"topup,t{session},a{session},{2 ** 80}",
                message("", session, 1, moment, [dict(ratingGroup=group, requestedUnit={})]),
                message(f"/{session}/release", session, 2, moment, [used])]
    answer("answer-prices-and-switches", setup, lines)


def answer_grants():
    """A session for each group, wish and amount of money around what the chunk costs."""
    setup, lines, session = RATES + [LIMITS], [], 0
    wishes = [{}, dict(totalVolume=0), dict(totalVolume=300), dict(totalVolume=2**60), dict(time=90), dict(time=2**32 - 1)]
    tops = {10: 2 * 10**6, 20: 600 * 2**32, 30: 1, 40: 24 * 2**40, 50: 1, 60: 1}
    for group in GROUPS:
        for wish in wishes:
            for money in (0, 1, tops[group] // 2, tops[group] - 1, tops[group], 2**80):
                session += 1
                lines.append(f"subscriber,imsi-{session},a{session},{'10 20' if session % 11 == 0 else ''}")
                if money:
                    lines.append(f"topup,t{session},a{session},{money}")
                lines.append(message("", session, 1, DAY, [dict(ratingGroup=group, requestedUnit=wish)]))
    answer("answer-grants", setup, lines)


def answer_all_bodies():
    """Each body of the table of requests, whatever its fields hold."""
    lines = ["subscriber,imsi-1,a1,"]
    paths = dict(C="", U="/5/update", R="/5/release")
    for line in (HERE / "crates" / "acceptance" / "stdin").read_text().splitlines():
        table, *fields = line.split("\t")
        if table == "request":
            lines.append(f"POST {BASE}{paths[fields[0]]} {fields[1]}")
    answer("answer-all-bodies", RATES + [LIMITS], lines)


def drawn_entries(draw, moment):
    """Entries of few groups, some of which ask and some of which report."""
    entries = []
    for group in draw.sample(GROUPS, draw.randrange(4)):
        entry = dict(ratingGroup=group)
        if draw.randrange(3):
            entry["requestedUnit"] = draw.choice([{}, {}, dict(totalVolume=draw.randrange(10**6)), dict(time=draw.randrange(500))])
        if draw.randrange(3):
            triggers = draw.choices(["QUOTA_THRESHOLD", "QUOTA_EXHAUSTED", "FINAL", "QHT", "TARIFF_TIME_CHANGE", "QOS_CHANGE"], k=draw.randrange(1, 3))
            entry["usedUnitContainer"] = [
                container(n, moment - draw.randrange(600), draw.randrange(40000), draw.randrange(50000), draw.randrange(300), trigger)
                for n, trigger in enumerate(triggers)]
        entries.append(entry)
    return entries


def drawn_row(draw, moment):
    kind = draw.randrange(4)
    if kind == 3:
        return f"close,{moment - draw.randrange(900)}"
    if kind == 0:
        return f"topup,t{draw.randrange(99)},a{draw.randrange(1, 4)},{draw.choice([3000000, 5 * 10**7])}"
    if kind == 1:
        return f"subscriber,imsi-{draw.randrange(1, 5)},a{draw.randrange(1, 3)},{draw.choice(['', '50', '10 20'])}"
    return f"expire,{moment - draw.randrange(3000)}"


def drawn_message(draw, function, moment):
    """A Create, or mostly the next request of a session that is there."""
    if not function.sessions or draw.randrange(9) == 0:
        subscriber = f"imsi-{draw.randrange(1, 6)}"
        return message("", draw.randrange(1, 30), 1, moment, drawn_entries(draw, moment), f"smf{draw.randrange(1, 3)}", subscriber)
    session = draw.choice(function.sessions[-6:])
    number = draw.randrange(session["last"] + 2) if draw.randrange(9) == 0 else session["last"] + 1
    reference = draw.randrange(40) if draw.randrange(15) == 0 else session["reference"]
    consumer = "smf3" if draw.randrange(20) == 0 else session["consumer"]
    word = "release" if draw.randrange(12) == 0 else "update"
    entries = drawn_entries(draw, moment)
    return message(f"/{reference}/{word}", session["charging_id"], number, moment, entries, consumer, again=draw.randrange(5) == 0)


def answer_drawn(seed):
    """Sessions of few subscribers on two accounts, drawn: requests in and out of order, repeated, overrunning."""
    draw, moment = random.Random(seed), DAY + 25000
    setup = RATES + [["", "limits,90000,0,0,0,60,chf1,FAILOVER_SUPPORTED", "limits,0,900,0,0,60,chf1,FAILOVER_SUPPORTED",
                      "limits,0,0,2,0,60,chf1,FAILOVER_SUPPORTED", "limits,0,0,0,1,60,chf1,FAILOVER_SUPPORTED",
                      "limits,200000,3000,3,5,60,chf1,FAILOVER_SUPPORTED"][seed % 6] or LIMITS]
    lines = ["subscriber,imsi-1,a1,", "subscriber,imsi-2,a1,50", "subscriber,imsi-3,a2,", f"topup,t0,a1,{10**8}"]
    function, sent = ChargingFunction(setup), []
    for line in lines:
        function.row(line)
    for turn in range(400):
        moment += draw.randrange(300)
        if draw.randrange(10) == 0:
            lines.append(drawn_row(draw, moment))
            function.row(lines[-1])
        else:
            repeats = sent and draw.randrange(10) == 0
            lines.append(draw.choice(sent) if repeats else drawn_message(draw, function, moment))
            sent.append(lines[-1])
            function.message(lines[-1])
    answer(f"answer-drawn-{seed}", setup, lines)


meter_in_many_hours()
operator_with_most_groups()
operator_with_many_accounts()
answer_with_many_sessions()
answer_prices_and_switches()
answer_grants()
answer_all_bodies()
for number in range(1, 7):
    answer_drawn(number)
