"""The charging trigger function of an SMF by its rules, for the table `sending`: what comes of a row of events.

A setup is HANDLING FAILOVER RETRY HELD CHANGES VOLUME SECONDS (HANDLING T, C or R for TERMINATE, CONTINUE and RETRY_AND_TERMINATE; FAILOVER y
or n). The events of a row stand between semicolons: attach GROUPS, start GROUP AT, count NUMBER GROUP UP DOWN SECONDS AT (NUMBER
may be a plus sign, the number that is expected), change TYPE AT, detach AT, abort AT, tick AT, ok NUMBER ENTRIES, released NUMBER,
refused NUMBER STATUS CAUSE, send (an attempt of what sends next), attempt PEER, notsent, noreply, restart. `on SESSION` names the
session of what follows, 7 at first; `fill COUNT AT` makes so many containers of group 10, each closed by a change, and answers
nothing; `see` shows the session. Moments are seconds after the first Attach.

An entry of an answer is GROUP:KIND:AMOUNT:THRESHOLD:LAST:SWITCH:VALIDITY:HOLDING (KIND v, s, n for a success that grants nothing,
d for a refused group; LAST T, R, A or a hyphen; the last two may be left out), or TYPE:CATEGORY:VOLUME:SECONDS:CHANGES or
GROUP/TYPE:.. for a trigger rule (CATEGORY I or D; the limits may be left out), or failover=y, handling=T."""

from reports import has_unsafe

BEGIN = 1767323045
TOP = 3155759999
TYPES = dict(
    FORCED="FORCED_REAUTHORISATION", QOS="QOS_CHANGE", RAT="RAT_CHANGE", PLMN="PLMN_CHANGE", LOCATION="USER_LOCATION_CHANGE",
    TIMEZONE="UE_TIMEZONE_CHANGE", AMBR="SESSION_AMBR_CHANGE", NODE="SERVING_NODE_CHANGE", MANAGEMENT="MANAGEMENT_INTERVENTION",
    FINAL="FINAL", EXHAUSTED="QUOTA_EXHAUSTED", THRESHOLD="QUOTA_THRESHOLD", VALIDITY="VALIDITY_TIME", QHT="QHT",
    TARIFF="TARIFF_TIME_CHANGE", VOLUME="VOLUME_LIMIT", TIME="TIME_LIMIT", ABNORMAL="ABNORMAL_RELEASE",
    CHANGES="MAX_NUMBER_OF_CHANGES_IN_CHARGING_CONDITIONS")
AT_ONCE = "FINAL EXHAUSTED THRESHOLD VALIDITY QHT VOLUME TIME FORCED PLMN MANAGEMENT".split()
FINAL_REFUSALS = {
    (404, "USER_UNKNOWN"), (403, "SESSION_EXISTS"), (403, "SESSION_CLOSED"), (400, "SEQUENCE_PASSED"), (400, "INVALID_MSG_FORMAT"),
    (400, "MANDATORY_IE_MISSING"), (400, "MANDATORY_IE_INCORRECT"), (400, "OPTIONAL_IE_INCORRECT")}


class Group:
    def __init__(self):
        self.expected, self.state, self.terms, self.horizon = 1, "none", None, None
        self.wish = self.carried = self.back = False
        self.use, self.fresh, self.last_use = [0, 0], [0, 0], 0

    def asked(self):
        return self.wish or self.carried

    def left(self):
        kind, amount = self.terms["grant"]
        return max(0, amount - self.use[0 if kind == "v" else 1])

    def gate(self):
        if self.state in ("unlimited", "free") or self.state == "granted" and self.left():
            return "passing"
        if self.state in ("none", "granted"):
            return "waiting"
        return {"T": "closed", "R": "redirect", "A": "restrict"}[self.terms["last"]] if self.state == "spent" else "closed"

    def due(self, now):
        """The quota triggers, in their order."""
        if self.state != "granted" or self.asked():
            return None
        terms, left = self.terms, self.left()
        if left == 0:
            return "FINAL" if terms["last"] else "EXHAUSTED"
        if not terms["last"] and terms["threshold"] and left <= terms["threshold"]:
            return "THRESHOLD"
        if terms["validity"] and now >= terms["stamp"] + terms["validity"]:
            return "VALIDITY"
        if terms["holding"] and now >= max(terms["stamp"], self.last_use) + terms["holding"]:
            return "QHT"
        return None

    def fire(self, trigger):
        if trigger == "FINAL" and self.state == "granted" and self.terms["last"]:
            self.state = "spent"
        if trigger == "QHT" and self.state == "granted":
            self.state = "none"
        if trigger in ("FINAL", "QHT"):
            self.back = True
        if trigger in ("EXHAUSTED", "THRESHOLD", "VALIDITY") or trigger == "FORCED" and self.state == "granted":
            self.wish = True


class Session:
    def __init__(self, smf, number, groups, moment):
        self.smf, self.number, self.life, self.last = smf, number, "live", moment
        self.reference = self.request = None
        self.count = self.reports = 0
        self.at_once, self.failover, self.handling, self.peer = False, smf.failover, smf.handling, "P"
        self.groups = {group: Group() for group in groups}
        self.containers, self.rules = [], {}
        for group in self.groups.values():
            group.wish = True
        self.freeze("C")

    def open(self, group):
        return next((c for c in self.containers if c["group"] == group and c["place"] == "open"), None)

    def waiting(self):
        return [c for c in self.containers if c["place"] == "waiting"]

    def gate(self, group):
        if self.life != "live":
            return "closed"
        return self.groups[group].gate() if group in self.groups else "waiting"

    def immediate(self, trigger, group=None):
        for key in ((group, trigger), (None, trigger)):
            if key in self.rules:
                return self.rules[key]["immediate"]
        return trigger in AT_ONCE

    def limit(self, name, trigger, group):
        for key in ((group, trigger), (None, trigger)):
            if self.rules.get(key, {}).get(name) is not None:
                return self.rules[key][name]
        return self.smf.limits[name]

    def close(self, container, trigger, moment):
        container.update(trigger=trigger, moment=moment, place="waiting")

    def close_all(self, trigger, moment):
        for container in self.containers:
            if container["place"] == "open":
                self.close(container, trigger, moment)

    def take(self, report):
        number, group, up, down, seconds, moment = report
        state, container = self.groups[group], self.open(group)
        if container:
            trigger = None
            if has_unsafe(state.horizon, container["last"], moment):
                trigger = "TARIFF"
            elif container["seconds"] + seconds >= 2**32:
                trigger = "TIME"
            if trigger:
                self.close(container, trigger, moment)
                self.at_once |= self.immediate(trigger, group)
                container = None
        if container:
            container.update(up=container["up"] + up, down=container["down"] + down, seconds=container["seconds"] + seconds, last=moment)
        else:
            self.containers.append(dict(
                lsn=len(self.containers) + 1, group=group, up=up, down=down, seconds=seconds, first=moment, last=moment, place="open"))
        state.expected, state.last_use = number + 1, moment
        for sums in (state.use, state.fresh):
            sums[0], sums[1] = sums[0] + up + down, sums[1] + seconds
        self.reports, self.last = self.reports + 1, moment

    def due(self, group, now):
        state, container = self.groups[group], self.open(group)
        trigger = state.due(now)
        if trigger or not container:
            return trigger
        if has_unsafe(state.horizon, container["last"], now):
            return "TARIFF"
        most = self.limit("volume", "VOLUME", group)
        if most and container["up"] + container["down"] >= most:
            return "VOLUME"
        most = self.limit("seconds", "TIME", group)
        if most and container["seconds"] >= most:
            return "TIME"
        return None

    def settle(self, now):
        for group in sorted(self.groups):
            trigger = self.due(group, now)
            if trigger:
                container = self.open(group)
                if container:
                    self.close(container, trigger, now)
                self.groups[group].fire(trigger)
                self.at_once |= self.immediate(trigger, group)

    def freeze(self, operation):
        self.count += 1
        held = self.waiting()[:500]
        for container in held:
            container["place"] = "frozen"
        entries = []
        for group in sorted(self.groups):
            state, used = self.groups[group], [c for c in held if c["group"] == group]
            if state.wish or state.back or used:
                entries.append((group, state.wish, [dict(c) for c in used]))
            state.wish, state.carried, state.back, state.fresh = False, state.wish or state.carried, False, [0, 0]
        self.request = dict(
            operation=operation, number=self.count, stamp=self.smf.now, again=False, entries=entries,
            abnormal=operation == "R" and self.life == "aborting")
        self.at_once = False
        self.turn, self.wait, self.flight, self.latest, self.unsent = 0, None, None, None, True

    def freeze_due(self):
        if self.request or self.life == "ended" or self.reference is None:
            return
        waits = len(self.waiting())
        if self.life in ("ending", "aborting"):
            self.freeze("U" if waits > 500 else "R")
            return
        most = self.rules.get((None, "CHANGES"), {}).get("changes")
        most = self.smf.changes if most is None else min(max(most, 1), max(self.smf.held, 1))
        if self.at_once or any(state.wish or state.back for state in self.groups.values()) or waits >= most:
            self.freeze("U")

    def finish(self):
        self.settle(self.smf.now)
        self.freeze_due()
        waits = self.waiting()
        for container in waits[:max(0, len(waits) - self.smf.held)]:
            container["place"] = "HELD_FULL"

    def end(self, cause):
        """The charging session is over; what no success took is given up for the cause, if there is one."""
        self.close_all("ABNORMAL", self.smf.now)
        self.life, self.request, self.flight = "ended", None, None
        for container in self.containers:
            if cause and container["place"] in ("waiting", "frozen"):
                container["place"] = cause

    def round(self):
        second = ("A" if self.peer == "P" else "P") if self.failover else self.peer
        return [self.peer] if self.handling == "T" else [self.peer, second]

    def may_send(self):
        return self.request and not self.flight and (self.wait is None or self.wait <= self.smf.now)

    def attempt(self, peer):
        self.flight = self.latest = peer
        self.request["again"] = True

    def lose(self, unsent):
        self.flight = None
        self.unsent = self.unsent and unsent
        self.turn += 1
        if self.turn < len(self.round()):
            return
        if self.handling == "C":
            for state in self.groups.values():
                if state.state != "unlimited" and not (state.state == "granted" and state.left()):
                    state.state = "free"
        elif self.unsent:
            self.end("NOT_SENT")
            return
        elif self.life == "live":
            self.close_all("ABNORMAL", self.smf.now)
            self.life = "aborting"
        self.turn, self.wait = 0, min(self.smf.now + self.smf.retry, TOP)

    def answer(self, kind, stamp, entries):
        """A final reply to the unanswered request."""
        self.peer = self.latest or self.peer
        self.flight = None
        if kind == "refused":
            self.end("REFUSED")
            return
        for container in self.containers:
            if container["place"] == "frozen":
                container["place"] = "answered"
        if kind == "released":
            self.end(None)
            return
        self.request = None
        if kind == "created":
            self.reference = 1
        infos, seen = {}, set()
        for entry in sorted(entries, key=lambda entry: not entry.split(":")[0].isdigit()):
            if entry.startswith("failover="):
                self.failover = entry[9:] == "y"
            elif entry.startswith("handling="):
                self.handling = entry[9:]
            elif entry.split(":")[0].isdigit():
                group, kind, amount, threshold, last, switch, *more = entry.split(":")
                infos.setdefault(int(group), (kind, amount, threshold, last, switch, *(more or ["-", "-"])))
            else:
                name, category, *limits = entry.split(":")
                group, _, trigger = name.rpartition("/")
                key = (int(group) if group else None, trigger)
                if key not in seen and (not group or key[0] in infos and key[0] in self.groups):
                    seen.add(key)
                    rule = self.rules.setdefault(key, {})
                    rule["immediate"] = category == "I"
                    for limit, given in zip(("volume", "seconds", "changes"), limits):
                        if given != "-":
                            rule[limit] = int(given)
        for number, state in self.groups.items():
            state.carried = False
            if number not in infos:
                state.wish |= state.state == "free"
                continue
            kind, amount, threshold, last, switch, validity, holding = infos[number]
            number_of = lambda text: 0 if text == "-" else int(text)
            state.state = {"v": "granted", "s": "granted", "n": "unlimited", "d": "denied"}[kind]
            if state.state == "granted":
                state.terms = dict(
                    grant=(kind, int(amount)), stamp=stamp, threshold=number_of(threshold), last="" if last == "-" else last,
                    validity=number_of(validity), holding=number_of(holding))
                state.horizon = (stamp, None if switch == "-" else BEGIN + int(switch))
            if state.state == "unlimited":
                state.wish = False
            state.use = list(state.fresh)

    def show(self):
        text = "-"
        if self.request:
            q = self.request
            text = f"{q['operation']}{q['number']}{'*' if q['again'] else ''}@{max(0, q['stamp'] - BEGIN)}"
            for group, wish, used in q["entries"]:
                text += f" {group}{'?' if wish else ':'}"
                text += ",".join(f"{c['lsn']}/{c['up']}/{c['down']}/{c['seconds']}/{TYPES[c['trigger']]}/{c['moment'] - BEGIN}" for c in used[:3])
                text += f"+{len(used) - 3}" if len(used) > 3 else ""
            text += " !" if q["abnormal"] else ""
        held = sum(c["place"] in ("open", "waiting", "frozen") for c in self.containers)
        text += f" c{len(self.containers)} h{held}"
        return text + f" {self.gate(10)} {self.gate(20)}"


class Smf:
    def __init__(self, setup):
        handling, failover, retry, held, changes, volume, seconds = setup.split()
        self.handling, self.failover, self.retry, self.held, self.changes = handling, failover == "y", int(retry), int(held), int(changes)
        self.limits = dict(volume=int(volume), seconds=int(seconds))
        self.now, self.sessions, self.on = 0, {}, 7

    def next_send(self):
        session = min((s for s in self.sessions.values() if s.may_send()), key=lambda s: s.number, default=None)
        return session and (session.number, session.round()[session.turn])

    def show(self):
        session, send = self.sessions.get(self.on), self.next_send()
        return " ".join([
            f">{send[0]}{send[1]}" if send else ">-", "^" + (session.flight or "-" if session else "-"),
            session.show() if session else "- c0 h0"])

    def answered(self, session, number, kind, entries):
        request = session.request
        if not request or request["number"] != number:
            return "K"
        wanted = {"created": "C", "updated": "U", "released": "R"}.get(kind)
        if wanted and wanted != request["operation"]:
            return "K"
        session.answer(kind, request["stamp"], entries)
        return self.done([session])

    def done(self, sessions):
        for session in sessions:
            session.finish()
        return "N"

    def step(self, words):
        """The answer to an event."""
        name, fields, session = words[0], words[1:], self.sessions.get(self.on)
        if name == "send":
            send = self.next_send()
            if not send:
                return "-"
            return self.step_on(send[0], ["attempt", send[1]])
        if name == "tick":
            moment = BEGIN + int(fields[0])
            if moment < self.now:
                return "E18"
            self.now = moment
            return self.done(self.sessions[number] for number in sorted(self.sessions))
        if name == "restart":
            flying = [s for s in self.sessions.values() if s.flight]
            for one in flying:
                one.lose(False)
            return self.done(flying) if flying else "K"
        if name == "attach":
            groups = sorted({int(group) for group in fields[0].split(",")})
            if session:
                return "E26"
            if len(fields[0].split(",")) > 16:
                return "E20"
            self.now = max(self.now, BEGIN)
            session = self.sessions[self.on] = Session(self, self.on, groups, BEGIN)
            return self.done([session])
        if not session:
            return "E25"
        if name == "attempt":
            if self.next_send() != (self.on, fields[0]):
                return "K"
            session.attempt(fields[0])
            return self.done([session])
        if name in ("notsent", "noreply"):
            if not session.flight:
                return "K"
            session.lose(name == "notsent")
            return self.done([session])
        if name == "ok":
            return self.answered(session, int(fields[0]), "created" if fields[0] == "1" else "updated", fields[1:])
        if name == "released":
            return self.answered(session, int(fields[0]), "released", [])
        if name == "refused":
            final = (int(fields[1]), fields[2]) in FINAL_REFUSALS
            return self.answered(session, int(fields[0]), "refused", []) if final else "K"
        return self.traffic(session, name, fields)

    def traffic(self, session, name, fields):
        live = session.life == "live"
        if name == "count":
            group = int(fields[1])
            expected = session.groups[group].expected if group in session.groups else 1
            number = expected if fields[0] == "+" else int(fields[0])
            up, down, seconds = (int(field) for field in fields[2:5])
            moment = BEGIN + int(fields[5])
            if 1 <= number < expected:
                return "K"
            if session.gate(group) != "passing":
                return "E24"
            if number != expected:
                return "E17"
            if up > 2**40 or down > 2**40 or seconds > 86400:
                return "E19"
            if moment < session.last:
                return "E18"
            if session.reports >= 2**20:
                return "E33"
            self.now = max(self.now, moment)
            session.take((number, group, up, down, seconds, moment))
            return self.done([session])
        moment = BEGIN + int(fields[-1])
        if not live:
            return "K" if name in ("detach", "abort") else "E24"
        if name == "start":
            state = session.groups.get(int(fields[0]))
            if state and (state.state in ("granted", "unlimited") or state.asked()):
                return "K"
        if moment < session.last:
            return "E18"
        if name == "start" and not state and len(session.groups) >= 16:
            return "E20"
        self.now = max(self.now, moment)
        session.last = moment
        if name == "start":
            session.groups.setdefault(int(fields[0]), Group()).wish = True
        elif name == "change":
            opened = [c for c in session.containers if c["place"] == "open"]
            asked = [session.immediate(fields[0], c["group"]) for c in opened] or [session.immediate(fields[0])]
            session.at_once |= any(asked)
            session.close_all(fields[0], moment)
            for state in session.groups.values():
                state.fire(fields[0])
        else:
            session.life = "ending" if name == "detach" else "aborting"
            session.close_all("FINAL" if name == "detach" else "ABNORMAL", moment)
        return self.done([session])

    def step_on(self, number, words):
        before, self.on = self.on, number
        answer = self.step(words)
        self.on = before
        return answer


def row(setup, text):
    smf, answers = Smf(setup), []
    for part in text.split(";"):
        words = part.split()
        if words[0] == "on":
            smf.on = int(words[1])
        elif words[0] == "fill":
            for _ in range(int(words[1])):
                smf.step(["count", "+", "10", "1", "1", "1", words[2]])
                smf.step(["change", "QOS", words[2]])
        elif words[0] == "see":
            answers.append(f" [{smf.show()}] ")
        else:
            answers.append(smf.step(words))
    return "".join(answers) + " " + smf.show()
