#!/usr/bin/env python3
"""spending.py: messages of spending limits (TS 29.594 in this product's profile) and tables of policy counters, by a model of
their own. Run alone it prints the lines of the tables spend-context, spend-status and counters, each with its answer.
"""
import json
import re

from messages import Fault, Wrong, any_text, an_object, list_of, name, needed, read_object

FORBIDDEN = set(map(chr, range(33))) | set("#/:<>?@[\\]^|%\x7f")


def port_is_right(port):
    return re.fullmatch("[0-9]*", port) is not None and int(port or 0) < 65536


def ipv4_is_right(host):
    labels = host.rstrip(".").split(".") if host.endswith(".") and host.count(".") > 1 else host.split(".")
    if not re.fullmatch("[0-9]+|0[xX][0-9a-fA-F]*", labels[-1]):
        return True
    try:
        numbers = [int(one, 16 if one[:2].lower() == "0x" else 8 if re.match("0.", one) else 10) for one in labels]
    except ValueError:
        return False
    return len(numbers) <= 4 and all(one < 256 for one in numbers[:-1]) and numbers[-1] < 256 ** (5 - len(numbers))


def is_http(text):
    """Whether the URL Standard reads a text with a host in ASCII as a URL of the scheme http."""
    text = re.sub("[\t\n\r]", "", text.strip("".join(map(chr, range(33)))))
    found = re.fullmatch(r"(?is)http:[/\\]*([^/\\?#]*)(.*)", text)
    if found is None:
        return False
    host = found[1].rpartition("@")[2]
    inner = re.fullmatch(r"\[([0-9a-fA-F:]+)\](?::(.*))?", host)
    if inner:
        return inner[1].count("::") < 2 and port_is_right(inner[2] or "")
    host, _, port = host.partition(":")
    return host != "" and port_is_right(port) and not FORBIDDEN & set(host) and ipv4_is_right(host)


def address(value):
    if len(any_text(value).encode()) > 255 or not is_http(value):
        raise Wrong
    return value


def field(value, label, reader, required):
    given = value.get(label)
    if given is None:
        if required:
            raise Fault("Missing", label)
        return []
    try:
        return reader(given)
    except Wrong:
        raise Fault("Wrong", label)


def compact(value):
    return json.dumps(value, sort_keys=True, separators=(",", ":"), ensure_ascii=False)


def context(body):
    try:
        value = read_object(body.encode())
        made = dict(supi=field(value, "supi", name, True))
        counters = field(value, "policyCounterIds", list_of(name, 100), False)
        made["notifUri"] = field(value, "notifUri", address, True)
        if counters:
            made["policyCounterIds"] = counters
        return compact(made)
    except Fault as fault:
        if fault.args[0] == "NotJson":
            return "INVALID_MSG_FORMAT"
        kind = "MISSING" if fault.args[0] == "Missing" else "INCORRECT"
        wanted = "OPTIONAL" if fault.args[1] == "policyCounterIds" else "MANDATORY"
        return f"{wanted}_IE_{kind} {fault.args[1]}"


def infos(value):
    for key, one in an_object(value).items():
        if not isinstance(one, dict):
            raise Wrong
        needed(one, "currentStatus", name)
        if needed(one, "policyCounterId", name) != key:
            raise Wrong
    return {key: {label: one[label] for label in ("currentStatus", "policyCounterId")} for key, one in value.items()}


def status(body):
    try:
        value = read_object(body.encode())
        return compact(dict(supi=field(value, "supi", name, True), statusInfos=field(value, "statusInfos", infos, True)))
    except Fault as fault:
        return " ".join(fault.args)


def read_rows(rows):
    """The limits of each counter by its name, or the number of the first bad row."""
    table, latest = {}, None
    for number, row in enumerate(rows, 1):
        try:
            word, counter, limit, state = row
            name(counter), name(state)
            if word != "counter" or not re.fullmatch("0|[1-9][0-9]*", limit) or int(limit) >= 2**128:
                raise Wrong
        except (ValueError, Wrong):
            return number
        limits = table.get(counter, [])
        if counter in table and (counter != latest or int(limit) <= limits[-1][0]):
            return number
        if counter not in table and (limit != "0" or len(table) == 100):
            return number
        table[counter], latest = limits + [(int(limit), state)], counter
    return table


def counters(rows, steps):
    table = read_rows([row.split(",") for row in rows.split(";")] if rows else [])
    if isinstance(table, int):
        return f"BadRow {table}"
    made, answers = [], []

    def state(counter, spent):
        reached = [one for one in table.get(counter, []) if one[0] <= spent]
        return max(reached)[1] if reached else "-"

    def watched(names):
        return sorted(table) if not names else sorted(set(names) & set(table))

    def shown(pairs):
        return "[" + ",".join(f"{one}={now}" for one, now in pairs) + "]"

    def names_of(text):
        return text.split("+") if text else []

    def live(number):
        return 1 <= number <= len(made) and made[number - 1] is not None

    def step(word, *given):
        if word == "names":
            return "(" + "+".join(sorted(table)) + ")"
        if word == "status":
            return state(given[0], int(given[1]))
        if word == "statuses":
            return shown((one, state(one, int(given[1]))) for one in watched(names_of(given[0])))
        if word == "made":
            return str(len(made))
        if word == "subscribe":
            if set(names_of(given[0])) - set(table):
                return "UnknownCounter"
            made.append(names_of(given[0]))
            return str(len(made))
        number = int(given[0])
        if word == "context":
            return "(" + "+".join(made[number - 1]) + ")" if live(number) else "-"
        if word == "changes":
            before, after = map(int, given[1:])
            if not live(number):
                return "[]"
            return shown((one, state(one, after)) for one in watched(made[number - 1]) if state(one, before) != state(one, after))
        if not live(number):
            return "UnknownSubscription"
        if word == "modify" and set(names_of(given[1])) - set(table):
            return "UnknownCounter"
        made[number - 1] = names_of(given[1]) if word == "modify" else None
        return "ok"

    for one in steps.split(";"):
        answers.append(step(*one.split(" ")))
    return " ".join(answers)


# ---- cases

SUPI = "imsi-001010000000001"
HERE = "http://127.0.0.1:9000/pcf"


def contexts():
    def body(**fields):
        return compact(dict(dict(supi=SUPI, notifUri=HERE), **fields))
    long_names = ["n" * 255, "n" * 256, "", "a b", "a,b", 'a"b', "~!#", "\x7f", "é", 5, None, [], {}, True]
    yield from (body(), body(policyCounterIds=["spend"]), body(policyCounterIds=[]), body(policyCounterIds=None),
                body(policyCounterIds=["b", "a", "b"]), body(policyCounterIds=["none"]), body(other={"deep": [1, None]}))
    yield from (body(supi=one) for one in long_names)
    yield from (body(policyCounterIds=[one]) for one in long_names)
    yield from (body(policyCounterIds=one) for one in ("spend", 5, {}, {"0": "a"}, True))
    yield from (body(policyCounterIds=[f"c{one}" for one in range(count)]) for count in (99, 100, 101))
    yield body(policyCounterIds=["a"] * 100)
    yield body(policyCounterIds=["a"] * 101)
    fill = "http://pcf.example/"
    yield from (body(notifUri=fill + "x" * (size - len(fill))) for size in (254, 255, 256))
    yield from (body(notifUri=fill + "é" * size) for size in (118, 119))
    yield from (body(notifUri=one) for one in (
        "https://pcf/", "HTTP://pcf/", "http:pcf", "http:/pcf", "http:///pcf", "http:\\\\pcf\\x", "http://", "http:", "http:///",
        "http://?q", "http://#f", "http://:80/", "http://@/", "http://u:p@pcf/", "http://u@", "http://pcf:0", "http://pcf:65535",
        "http://pcf:65536", "http://pcf:80a", "http://pcf:", "http://pcf:80:80", "http://[::1]:8080/a", "http://[::1", "http://[]",
        "http://pcf?x=1&y=2", "http://pcf/a?x#y", "http://pcf/a b", " http://pcf ", "http://p\tcf/", "http://p cf/", "http://p%/",
        "http://p<f/", "http://p|f/", "http://p^f/", "http://1.2.3.4.5/", "http://256.1.1.1/", "http://1.2.3.4/", "http://127.1/",
        "http://0x7f.1/", "ftp://pcf/", "pcf", "/pcf", "", "//pcf", "mailto:a@b", "httpx://pcf/", "http//pcf", 5, None, [], {}, True))
    yield from ("{}", "", "[]", "null", "5", '"a"', "{", '{"supi":"a"}', '{"notifUri":"http://a"}', '{"supi":5}',
                '{"supi":5,"notifUri":5,"policyCounterIds":5}', '{"supi":"a","notifUri":5,"policyCounterIds":5}',
                '{"supi":"a","notifUri":"ftp://a","policyCounterIds":[]}', '{"supi":"a","policyCounterIds":5}',
                '{"notifUri":5,"policyCounterIds":5}', '{"supi":null,"notifUri":"http://a"}', '{"supi":"a","notifUri":null}',
                '{"supi":"a","supi":"b","notifUri":"http://a"}', '{"supi":"a","supi":null,"notifUri":"http://a"}',
                ' {"supi" : "a" , "notifUri":"http://a"} ', '{"supi":"a","notifUri":"http://a"}x',
                '{"supi":"\\u0061","notifUri":"http:\\/\\/a"}', '{"supi":"a","notifUri":"http://a","x":' + "[" * 126 + "]" * 126 + "}",
                '{"supi":"a","notifUri":"http://a","x":' + "[" * 127 + "]" * 127 + "}")


def statuses():
    def body(**fields):
        return compact(dict(dict(supi=SUPI, statusInfos={}), **fields))

    def info(counter, state):
        return dict(currentStatus=state, policyCounterId=counter)
    yield from (body(), body(statusInfos={"spend": info("spend", "low")}), body(statusInfos={"b": info("b", "x"), "a": info("a", "y")}),
                body(statusInfos={"B": info("B", "x"), "a": info("a", "y"), "ab": info("ab", "z")}),
                body(statusInfos={"a": info("b", "x")}), body(statusInfos={"a": dict(currentStatus="x")}),
                body(statusInfos={"a": dict(policyCounterId="a")}), body(statusInfos={"a": {}}), body(statusInfos={"a": None}),
                body(statusInfos={"a": []}), body(statusInfos={"a": "x"}), body(statusInfos={"a": info("a", None)}),
                body(statusInfos={"a": info(None, "x")}), body(statusInfos={"a": dict(info("a", "x"), penPolCounterStatuses=[1])}),
                body(statusInfos={"n" * 255: info("n" * 255, "s" * 255)}), body(statusInfos={"n" * 256: info("n" * 256, "s")}),
                body(statusInfos={"n": info("n", "s" * 256)}), body(statusInfos={"": info("", "s")}), body(statusInfos={"a b": info("a b", "s")}),
                body(statusInfos=[]), body(statusInfos=5), body(statusInfos=None), body(supi=None), body(supi=5), body(supi=5, statusInfos=5),
                body(supi="n" * 256), body(statusInfos={f"c{one}": info(f"c{one}", f"s{one}") for one in range(120)}), body(more=1))
    yield from ("{}", "[]", "", '{"statusInfos":5}', '{"supi":"a"}',
                '{"supi":"a","statusInfos":{"a":{"currentStatus":"x","policyCounterId":"a"},"a":{"currentStatus":"y","policyCounterId":"a"}}}',
                '{"supi":"a","statusInfos":{"a":{"currentStatus":"x","policyCounterId":"a"},"a":5}}')


def tables():
    spend = "counter,spend,0,low;counter,spend,1000000,high"
    most = 2**128 - 1
    yield spend, ";".join(f"status spend {one}" for one in (0, 1, 999999, 1000000, 1000001, most)) + ";status none 5;status Spend 5;names"
    yield spend, "subscribe ;changes 1 0 1000000;changes 1 999999 1000000;changes 1 1000000 1000001;changes 1 0 999999;changes 1 1000000 0;statuses  0"
    yield "", "names;status a 0;statuses  5;subscribe ;subscribe a;changes 1 0 5;made"
    many = "counter,b,0,b0;counter,b,10,b1;counter,b,20,b2;counter,B,0,X;counter,a,0,a0;counter,a,20,a1;counter,a,21,a0;counter,ab,0,same;counter,ab,20,same"
    yield many, "names;" + ";".join(f"statuses  {one}" for one in (0, 9, 10, 11, 19, 20, 21, 22))
    yield many, "subscribe ;subscribe a;subscribe b+a;subscribe a+a+B;subscribe ab;" + ";".join(
        f"changes {one} {two} {three}" for one in range(0, 7) for two, three in ((0, 10), (19, 20), (20, 21), (9, 22), (0, 21), (5, 5), (22, 0)))
    yield many, ("subscribe a;subscribe c;subscribe b+c;made;context 1;context 2;modify 1 b+ab;context 1;modify 1 c;context 1;modify 2 a;modify 2 c;"
                 "modify 0 a;subscribe B;context 2;remove 1;context 1;remove 1;modify 1 a;modify 1 c;changes 1 0 99;remove 0;remove 3;subscribe ;made;"
                 "context 3;context 4;remove 4294967295;context 4294967295;remove 2;remove 3;made;subscribe a;context 4;modify 4 ;context 4")
    yield many, "statuses a+none+b 20;statuses none 20;statuses b+a+b 10"
    for rows in ("counter,a,1,x", "counter,a,0,x;counter,a,0,y", "counter,a,0,x;counter,a,5,y;counter,a,4,z", "counter,a,0,x;counter,a,5,y;counter,a,5,z",
                 "counter,a,0,x;counter,b,0,y;counter,a,5,z", "counter,a,0,x;counter,b,0,y;counter,b,1,y;counter,b,1,y", "counter,a,0,x;counter,b,7,y",
                 "counter,a,0", "counter,a,0,x,y", "counter", "Counter,a,0,x", "counters,a,0,x", "limits,a,0,x", "counter,,0,x", "counter,a,0,", "counter,a b,0,x",
                 "counter,a,0,x y", "counter,a,00,x", "counter,a,+0,x", "counter,a,-0,x", "counter,a,,x", "counter,a,0.0,x", "counter,a,0,é", "counter,é,0,x",
                 "counter,a,0,x;counter,a,01,y", f"counter,a,0,x;counter,a,{most},y", f"counter,a,0,x;counter,a,{most + 1},y", f"counter,a,0,x;counter,a,{10**39},y",
                 f"counter,{'n' * 255},0,{'s' * 255}", f"counter,{'n' * 256},0,s", f"counter,n,0,{'s' * 256}", "counter,a,0,x;;counter,b,0,y",
                 "counter,a,0,x;counter,aa,0,y;counter,a,1,z", "counter,a,0,x;counter,A,0,y;counter,A,1,z"):
        yield rows, f"names;statuses  {most};statuses  0"
    for count in (99, 100, 101):
        yield ";".join(f"counter,c{one:03},0,s{one};counter,c{one:03},{one + 1},t" for one in reversed(range(count))), "names;statuses  50;subscribe ;changes 1 40 43"
    hundred = ";".join(f"counter,c{one * 37 % 100},0,s{one};counter,c{one * 37 % 100},{one + 1},t{one}" for one in range(100))
    yield hundred, "names;subscribe " + "+".join(f"c{one}" for one in range(100)) + ";changes 1 10 15;subscribe c7+c99+c0;changes 2 0 100;changes 2 50 50"


MODELS = {"spend-context": context, "spend-status": status, "counters": counters}


def main():
    for table, cases in (("spend-context", contexts()), ("spend-status", statuses()), ("counters", tables())):
        for case in cases:
            fields = (case,) if isinstance(case, str) else case
            print("\t".join((table, *fields, MODELS[table](*fields))))


if __name__ == "__main__":
    main()
