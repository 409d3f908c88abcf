"""The charging function by plain maps and sums over its commands: tariffs, accounts, sessions, first replies. It gives the lines
that `charging answer` and `charging operator` print, and knows nothing of the program."""
from messages import BASE, Fault, cause_of, compact, read_request
from times import LAST, write_time

CHANGES = set(
    "TARIFF_TIME_CHANGE QOS_CHANGE RAT_CHANGE PLMN_CHANGE USER_LOCATION_CHANGE UE_TIMEZONE_CHANGE SESSION_AMBR_CHANGE "
    "SERVING_NODE_CHANGE".split())
PROBLEMS = dict(E28=(403, "SESSION_EXISTS"), E29=(403, "SESSION_CLOSED"), E30=(400, "SEQUENCE_PASSED"), E31=(404, "UNKNOWN_REFERENCE"))


def problem(status, cause, detail=None):
    return f"{status} - {compact(dict(cause=cause, detail=detail, status=status))}"


class Tariff:
    """A rating group's terms and periods, by its rows."""

    def __init__(self, kind, chunk, threshold, validity, holding, action):
        self.kind, self.action = kind, action
        self.chunk, self.threshold, self.validity, self.holding = map(int, (chunk, threshold, validity, holding))
        self.periods = []

    def prices(self, moment):
        hour = moment // 3600 % 24
        begun = [p for p in self.periods if p[0] <= hour]
        return (begun or self.periods)[-1][1:]

    def price(self, up, down, seconds, moment):
        return sum(amount * price for amount, price in zip((up, down, seconds), self.prices(moment)))

    def next_switch(self, after):
        hours = [p[0] for p in self.periods]
        if len(hours) > 1:
            for moment in range(after // 3600 * 3600 + 3600, after + 90000, 3600):
                if moment <= LAST and moment // 3600 % 24 in hours:
                    return moment
        return None

    def top(self):
        return max(p[3] if self.kind == "time" else max(p[1], p[2]) for p in self.periods)

    def grant(self, free, asked):
        """The units, what is set aside, and whether they are the last."""
        wanted = asked["seconds"] if self.kind == "time" else asked["volume"]
        wish = min(self.chunk, wanted or self.chunk)
        units = wish if self.top() == 0 else min(wish, free // self.top())
        return units, units * self.top(), units < wish


class ChargingFunction:
    def __init__(self, setup):
        self.tariffs, self.rows, self.accounts, self.topups = {}, {}, {}, {}
        self.left, self.sessions, self.replies = {}, [], {}
        for row in setup:
            word, *fields = row.split(",")
            if word == "group":
                self.tariffs[int(fields[0])] = Tariff(*fields[1:])
            elif word == "price":
                self.tariffs[int(fields[0])].periods.append(tuple(map(int, fields[1:])))
            else:
                self.limits, self.grace, self.failover = tuple(map(int, fields[:4])), int(fields[4]), fields[6]

    def free(self, name):
        account = self.accounts[name]
        return account["topups"] - account["taken"] - sum(one[1] for one in self.left.values() if one[0] == name)

    def subscriber(self, supi, name, barred):
        self.accounts.setdefault(name, dict(topups=0, taken=0, owed=0))
        if self.rows.get(supi) == (name, barred):
            return "known"
        self.rows[supi] = (name, barred)
        return "ok"

    def topup(self, number, name, amount):
        if name not in self.accounts:
            return "refused,E15"
        if number in self.topups:
            return "known" if self.topups[number] == (name, amount) else "refused,E36"
        self.topups[number] = (name, amount)
        account = self.accounts[name]
        paid = min(amount, account["owed"])
        account.update(topups=account["topups"] + amount, taken=account["taken"] + paid, owed=account["owed"] - paid)
        return "ok"

    def expire(self, moment):
        ended = [key for key, one in self.left.items() if one[2] is not None and one[2] <= moment]
        for key in ended:
            del self.left[key]
        return "ok" if ended else "known"

    def close(self, moment):
        """Closes each record that has a container; the next one opens at that moment."""
        closed = [s for s in self.sessions if s["record"] and s["record"]["containers"]]
        for session in closed:
            session["record"] = self.opened(moment)
        return "ok" if closed else "known"

    def opened(self, moment):
        return dict(opening=moment, octets=0, changes=0, containers=0)

    def file(self, session, request):
        """The containers of a request come to the open record of its session, which a limit or a Release closes."""
        record = session["record"] = session.get("record") or self.opened(request["stamp"])
        for used in (used for entry in request["usage"] for used in entry["used"]):
            record["octets"] += used["up"] + used["down"]
            record["changes"] += not CHANGES.isdisjoint(used["triggers"])
            record["containers"] += 1
        sums = record["octets"], request["stamp"] - record["opening"], record["changes"], record["containers"]
        if request["operation"] == "release":
            session["record"] = None
        elif record["containers"] and any(limit and limit <= amount for limit, amount in zip(self.limits, sums)):
            session["record"] = self.opened(request["stamp"])

    def row(self, line):
        word, *fields = line.split(",")
        if word == "subscriber":
            return self.subscriber(*fields)
        if word == "topup":
            return self.topup(fields[0], fields[1], int(fields[2]))
        if word == "close":
            return self.close(int(fields[0]))
        return self.expire(int(fields[0]))

    def account_lines(self):
        lines = []
        for name in sorted(self.accounts, key=str.encode):
            a = self.accounts[name]
            aside = sum(one[1] for one in self.left.values() if one[0] == name)
            lines.append(f"account,{name},{a['topups']},{a['topups'] - a['taken']},{a['taken']},{a['owed']},{aside}")
        return lines

    def message(self, line):
        method, path, body = (line.split(" ", 2) + [""])[:3]
        target = self.target(path.split("?")[0])
        if target is None:
            return problem(404, "NOT_FOUND")
        if method != "POST":
            return problem(405, "NOT_FOUND")
        operation, reference = target
        try:
            request = read_request(operation, body.encode())
        except Fault as fault:
            return problem(400, cause_of(operation, fault), *fault.args[1:])
        request["reference"] = reference
        return self.answer(request)

    def target(self, path):
        if path == BASE:
            return "create", None
        parts = path[len(BASE) + 1:].split("/")
        if not path.startswith(BASE + "/") or len(parts) != 2 or not parts[0] or parts[1] not in ("update", "release"):
            return None
        digits = parts[0].isascii() and parts[0].isdigit() and parts[0][0] != "0"
        return parts[1], int(parts[0]) if digits and int(parts[0]) < 2**32 else 0

    def answer(self, request):
        consumer = request["consumer"]
        if request["operation"] == "create":
            session, charging_id = None, request["charging_id"]
        else:
            session = self.session(consumer, request["reference"])
            if session is None:
                return problem(*PROBLEMS["E31"])
            charging_id = session["charging_id"]
        key = consumer, charging_id, request["number"]
        content = {field: value for field, value in request.items() if field != "again"}
        if key in self.replies:
            kept, reply = self.replies[key]
            return reply if kept == content else problem(*PROBLEMS["E30"])
        if session is None:
            if any((s["consumer"], s["charging_id"]) == key[:2] for s in self.sessions):
                return problem(*PROBLEMS["E28"])
            if request["subscriber"] not in self.rows:
                self.replies[key] = content, problem(404, "USER_UNKNOWN")
                return self.replies[key][1]
            session = dict(
                reference=len(self.sessions) + 1, consumer=consumer, charging_id=charging_id, subscriber=request["subscriber"],
                account=self.rows[request["subscriber"]][0], released=False)
            self.sessions.append(session)
        elif request["number"] <= session["last"]:
            return problem(*PROBLEMS["E30"])
        elif session["released"]:
            return problem(*PROBLEMS["E29"])
        session["last"] = request["number"]
        self.replies[key] = content, self.use(session, request)
        self.file(session, request)
        return self.replies[key][1]

    def session(self, consumer, reference):
        if 1 <= reference <= len(self.sessions) and self.sessions[reference - 1]["consumer"] == consumer:
            return self.sessions[reference - 1]
        return None

    def use(self, session, request):
        """Charges, gives back and grants; the reply."""
        number = session["reference"]
        for entry in request["usage"]:
            for used in entry["used"]:
                self.charge(session["account"], (number, entry["group"]), used)
        for entry in request["usage"]:
            last = entry["used"][-1]["triggers"] if entry["used"] else ["FINAL"]
            if entry["ask"] is not None or "QHT" in last or "FINAL" in last:
                self.left.pop((number, entry["group"]), None)
        wishes = {}
        for entry in request["usage"]:
            if wishes.get(entry["group"]) is None:
                wishes[entry["group"]] = entry["ask"]
        units = [self.granted(session, request, group, ask) for group, ask in wishes.items() if ask is not None]
        if request["operation"] == "release":
            session["released"] = True
            self.left = {key: one for key, one in self.left.items() if key[0] != number}
            return "204 - -"
        body = compact(dict(
            invocationSequenceNumber=request["number"], invocationTimeStamp=write_time(request["stamp"]),
            multipleUnitInformation=units, sessionFailover=self.failover))
        return f"201 {BASE}/{number} {body}" if request["operation"] == "create" else f"200 - {body}"

    def charge(self, name, key, used):
        tariff = self.tariffs.get(key[1])
        amount = tariff.price(used["up"], used["down"], used["seconds"], used["first"]) if tariff else 0
        own = min(amount, self.left[key][1]) if key in self.left else 0
        free = min(amount - own, self.free(name))
        if own:
            self.left[key][1] -= own
            if self.left[key][1] == 0:
                del self.left[key]
        account = self.accounts[name]
        account.update(taken=account["taken"] + own + free, owed=account["owed"] + amount - own - free)

    def granted(self, session, request, group, ask):
        tariff = self.tariffs.get(group)
        barred = self.rows[session["subscriber"]][1].split(" ")
        if tariff is None:
            return dict(ratingGroup=group, resultCode="RATING_FAILED")
        if str(group) in barred:
            return dict(ratingGroup=group, resultCode="END_USER_SERVICE_DENIED")
        if tariff.kind == "offline":
            return dict(ratingGroup=group, resultCode="QUOTA_MANAGEMENT_NOT_APPLICABLE")
        units, aside, last = tariff.grant(self.free(session["account"]), ask)
        if units == 0:
            return dict(ratingGroup=group, resultCode="QUOTA_LIMIT_REACHED")
        if aside:
            deadline = min(request["stamp"] + tariff.validity + self.grace, LAST) if tariff.validity else None
            self.left[session["reference"], group] = [session["account"], aside, deadline]
        switch = tariff.next_switch(request["stamp"])
        kind = "time" if tariff.kind == "time" else "totalVolume"
        threshold = "timeQuotaThreshold" if tariff.kind == "time" else "volumeQuotaThreshold"
        return {
            "grantedUnit": {kind: units, "tariffTimeChange": None if switch is None else write_time(switch)},
            "finalUnitIndication": dict(finalUnitAction=tariff.action) if last else None, "quotaHoldingTime": tariff.holding or None,
            "ratingGroup": group, "resultCode": "SUCCESS", threshold: tariff.threshold or None, "validityTime": tariff.validity or None}


def printed(setup, lines):
    """What `charging answer` prints on setup rows, then operator's rows and messages."""
    function = ChargingFunction(setup)
    messages = ("POST ", "PUT ", "DELETE ")
    out = [function.message(line) if line.startswith(messages) else function.row(line) for line in lines]
    return out + function.account_lines()
