"""Charging messages (TS 32.291 in this product's profile): a reader and a writer of their own, over Python's json.

A value that is read keeps the digits of its numbers as they stand. A fault is a Fault with its kind and the field.
"""
import json
import math
import re
from urllib.parse import urljoin, urlsplit

from times import read_time, write_time

BASE = "/nchf-convergedcharging/v3/chargingdata"
TYPES = (
    "FINAL QUOTA_EXHAUSTED QUOTA_THRESHOLD VALIDITY_TIME QHT TARIFF_TIME_CHANGE VOLUME_LIMIT TIME_LIMIT FORCED_REAUTHORISATION "
    "QOS_CHANGE RAT_CHANGE PLMN_CHANGE USER_LOCATION_CHANGE UE_TIMEZONE_CHANGE SESSION_AMBR_CHANGE SERVING_NODE_CHANGE "
    "MANAGEMENT_INTERVENTION MAX_NUMBER_OF_CHANGES_IN_CHARGING_CONDITIONS ABNORMAL_RELEASE").split()
CODES = "SUCCESS END_USER_SERVICE_DENIED QUOTA_MANAGEMENT_NOT_APPLICABLE QUOTA_LIMIT_REACHED RATING_FAILED".split()


class Fault(Exception):
    """NotJson, Missing or Wrong, with the field."""


class Wrong(Exception):
    """A value that its field may not hold."""


class Digits(str):
    """A number as it stands."""


def finite(digits):
    if math.isinf(float(digits)):
        raise ValueError(digits)
    return Digits(digits)


def no_constant(word):
    raise ValueError(word)


def depth(value):
    inner = value.values() if isinstance(value, dict) else value if isinstance(value, list) else ()
    return 1 + max(map(depth, inner), default=0) if isinstance(value, (dict, list)) else 0


def read_object(body):
    try:
        value = json.loads(body.decode("utf-8"), parse_int=finite, parse_float=finite, parse_constant=no_constant)
        json.dumps(value, ensure_ascii=False).encode("utf-8")  # no half of a pair of surrogates
    except (ValueError, RecursionError):
        raise Fault("NotJson")
    if not isinstance(value, dict) or depth(value) > 127:
        raise Fault("NotJson")
    return value


# What a value may be. Each reader gives the value or raises Wrong.
def number(most):
    def read(value):
        if not isinstance(value, Digits) or not re.fullmatch("[0-9]+", value) or int(value) > most:
            raise Wrong
        return int(value)
    return read


def text(most, alphabet=r"[!-~]"):
    def read(value):
        if not isinstance(value, str) or isinstance(value, Digits) or not re.fullmatch(alphabet + "{1,%d}" % most, value):
            raise Wrong
        return value
    return read


def any_text(value):
    if not isinstance(value, str) or isinstance(value, Digits):
        raise Wrong
    return value


def word_of(*words):
    def read(value):
        if any_text(value) not in words:
            raise Wrong
        return value
    return read


def boolean(value):
    if not isinstance(value, bool):
        raise Wrong
    return value


def an_object(value):
    if not isinstance(value, dict):
        raise Wrong
    return value


def list_of(item, most=None):
    def read(value):
        if not isinstance(value, list) or (most is not None and len(value) > most):
            raise Wrong
        return [item(one) for one in value]
    return read


def time(value):
    moment = read_time(any_text(value))
    if moment is None:
        raise Wrong
    return moment


U32, OCTETS, TOTAL = number(2**32 - 1), number(2**60), number(2**61)
name = text(255, r'[!#-+\--~]')
kind = text(64, r'[!#-+\--~]')


def optional(holder, field, reader, default=None):
    value = holder.get(field)
    return default if value is None else reader(value)


def needed(holder, field, reader):
    value = holder.get(field)
    if value is None:
        raise Wrong
    return reader(value)


def top(holder, field, reader, required, default=None):
    """A field of the outermost object."""
    value = holder.get(field) if isinstance(holder, dict) else holder
    if value is None:
        if required:
            raise Fault("Missing", field)
        return default
    try:
        return reader(value)
    except Wrong:
        raise Fault("Wrong", field)


def consumer(value):
    an_object(value)
    for field in ("nFName", "nFIPv4Address", "nFFqdn"):
        if value.get(field) is not None:
            return name(value[field])
    raise Wrong


def trigger(value):
    an_object(value)
    return dict(
        kind=needed(value, "triggerType", kind),
        category=optional(value, "triggerCategory", word_of("IMMEDIATE_REPORT", "DEFERRED_REPORT"), "IMMEDIATE_REPORT"),
        seconds=optional(value, "timeLimit", U32),
        changes=optional(value, "maxNumberOfccc", U32),
        narrow=optional(value, "volumeLimit", OCTETS),
        wide=optional(value, "volumeLimit64", OCTETS))


def kind_of(value):
    return trigger(value)["kind"]


def volumes(value):
    up, down = optional(value, "uplinkVolume", OCTETS), optional(value, "downlinkVolume", OCTETS)
    total = optional(value, "totalVolume", TOTAL)
    if total is not None:
        if up is None:
            up = 0 if down is None else total - down
        if down is None:
            down = total - up
        if up + down != total:
            raise Wrong
    up, down = up or 0, down or 0
    if not (0 <= up <= 2**60 and 0 <= down <= 2**60):
        raise Wrong
    return up, down


def container(stamp):
    def read(value):
        an_object(value)
        lsn, seconds = needed(value, "localSequenceNumber", U32), optional(value, "time", U32, 0)
        up, down = volumes(value)
        triggers = optional(value, "triggers", list_of(kind_of), [])
        moment = optional(value, "triggerTimestamp", time, stamp)
        span = optional(value, "pDUContainerInformation", an_object, {})
        first, last = optional(span, "timeofFirstUsage", time, moment), optional(span, "timeofLastUsage", time, moment)
        if first > last:
            raise Wrong
        return dict(lsn=lsn, seconds=seconds, up=up, down=down, triggers=triggers, moment=moment, first=first, last=last)
    return read


def ask(value):
    an_object(value)
    return dict(volume=optional(value, "totalVolume", OCTETS), seconds=optional(value, "time", U32))


def entry(stamp):
    def read(value):
        an_object(value)
        return dict(
            group=needed(value, "ratingGroup", U32), ask=optional(value, "requestedUnit", ask),
            used=optional(value, "usedUnitContainer", list_of(container(stamp), 1000), []))
    return read


def charging_id(body):
    value = body.get("chargingId")
    outer = body.get("pDUSessionChargingInformation")
    if value is None and isinstance(outer, dict):
        value = outer.get("chargingId")
    return value


def read_request(operation, body):
    """The request of an operation (create, update or release) and a body of bytes."""
    value, create = read_object(body), operation == "create"
    request = dict(operation=operation, consumer=top(value, "nfConsumerIdentification", consumer, True))
    stamp = request["stamp"] = top(value, "invocationTimeStamp", time, True)
    request["number"] = top(value, "invocationSequenceNumber", U32, True)
    request["subscriber"] = top(value, "subscriberIdentifier", name, create)
    request["charging_id"] = top({"chargingId": charging_id(value)}, "chargingId", U32, create)
    request["again"] = top(value, "retransmissionIndicator", boolean, False, False)
    request["notify"] = top(value, "notifyUri", text(255), False)
    request["usage"] = top(value, "multipleUnitUsage", list_of(entry(stamp), 1000), False, [])
    request["triggers"] = top(value, "triggers", list_of(kind_of), False, [])
    return request


def cause_of(operation, fault):
    """The cause of a refused request."""
    if fault.args[0] == "NotJson":
        return "INVALID_MSG_FORMAT"
    if fault.args[0] == "Missing":
        return "MANDATORY_IE_MISSING"
    always = ("nfConsumerIdentification", "invocationTimeStamp", "invocationSequenceNumber")
    first = ("subscriberIdentifier", "chargingId")
    required = fault.args[1] in always or (operation == "create" and fault.args[1] in first)
    return "MANDATORY_IE_INCORRECT" if required else "OPTIONAL_IE_INCORRECT"


def compact(value):
    """Compact text with keys in ascending byte order; absent fields and empty lists are left out."""
    def kept(one):
        if isinstance(one, dict):
            return {k: kept(v) for k, v in sorted(one.items(), key=lambda p: p[0].encode()) if v is not None and v != []}
        return [kept(v) for v in one] if isinstance(one, list) else one
    return json.dumps(kept(value), separators=(",", ":"), ensure_ascii=False)


def trigger_data(kind):
    return dict(triggerCategory="IMMEDIATE_REPORT", triggerType=kind)


def used_data(used):
    return dict(
        downlinkVolume=used["down"], localSequenceNumber=used["lsn"], time=used["seconds"], totalVolume=used["up"] + used["down"],
        triggerTimestamp=write_time(used["moment"]), triggers=[trigger_data(k) for k in used["triggers"]], uplinkVolume=used["up"],
        pDUContainerInformation=dict(timeofFirstUsage=write_time(used["first"]), timeofLastUsage=write_time(used["last"])))


def usage_data(usage):
    wish = usage["ask"]
    return dict(
        ratingGroup=usage["group"], usedUnitContainer=[used_data(u) for u in usage["used"]],
        requestedUnit=None if wish is None else dict(time=wish["seconds"], totalVolume=wish["volume"]))


def write_request(request):
    return compact(dict(
        chargingId=request["charging_id"], invocationSequenceNumber=request["number"],
        invocationTimeStamp=write_time(request["stamp"]), multipleUnitUsage=[usage_data(u) for u in request["usage"]],
        nfConsumerIdentification=dict(nFName=request["consumer"], nodeFunctionality="SMF"), notifyUri=request["notify"],
        retransmissionIndicator=True if request["again"] else None, subscriberIdentifier=request["subscriber"],
        triggers=[trigger_data(k) for k in request["triggers"]]))


def rules(value):
    return [rule for rule in list_of(trigger)(value) if rule["kind"] in TYPES]


def granted(value):
    an_object(value)
    return dict(
        switch=optional(value, "tariffTimeChange", time), seconds=optional(value, "time", U32),
        volume=optional(value, "totalVolume", OCTETS))


def last_units(value):
    an_object(value)
    return optional(value, "finalUnitAction", word_of("TERMINATE", "REDIRECT", "RESTRICT_ACCESS"))


def info(value):
    an_object(value)
    code = needed(value, "resultCode", any_text)
    return dict(
        group=needed(value, "ratingGroup", U32), code=code if code in CODES else "END_USER_SERVICE_DENIED",
        granted=optional(value, "grantedUnit", granted, dict(switch=None, seconds=None, volume=None)),
        validity=optional(value, "validityTime", U32), holding=optional(value, "quotaHoldingTime", U32),
        octets=optional(value, "volumeQuotaThreshold", OCTETS), seconds=optional(value, "timeQuotaThreshold", U32),
        last=optional(value, "finalUnitIndication", last_units), triggers=optional(value, "triggers", rules, []))


def handling(value):
    an_object(value)
    return optional(value, "failureHandling", word_of("TERMINATE", "CONTINUE", "RETRY_AND_TERMINATE"))


def reference(location):
    """The reference that a Location names, its path read against http://peer/."""
    try:
        path = urlsplit(urljoin("http://peer/", location)).path
    except ValueError:
        return None
    match = re.fullmatch(re.escape(BASE) + "/([1-9][0-9]*)", path)
    if not match or int(match[1]) > 2**32 - 1:
        return None
    return int(match[1])


def read_reply(status, location, body):
    """The Location that is written and the reply's body as it is written."""
    if status == 204:
        return None, ""
    value = read_object(body)
    if status not in (200, 201):
        cause, detail = top(value, "cause", any_text, True), top(value, "detail", any_text, False)
        return None, compact(dict(cause=cause, detail=detail, status=status))
    stamp = top(value, "invocationTimeStamp", time, True)
    answer = dict(invocationTimeStamp=write_time(stamp), invocationSequenceNumber=top(value, "invocationSequenceNumber", U32, True))
    result = top(value, "invocationResult", handling, False)
    answer["invocationResult"] = None if result is None else dict(failureHandling=result)
    words = word_of("FAILOVER_SUPPORTED", "FAILOVER_NOT_SUPPORTED")
    answer["sessionFailover"] = top(value, "sessionFailover", words, False)
    answer["triggers"] = [rule_data(r) for r in top(value, "triggers", rules, False, [])]
    answer["multipleUnitInformation"] = [
        info_data(i) for i in top(value, "multipleUnitInformation", list_of(info), False, [])]
    made = None
    if status == 201:
        if location is None:
            raise Fault("Missing", "Location")
        made = reference(location)
        if made is None:
            raise Fault("Wrong", "Location")
    return made, compact(answer)


def rule_data(rule):
    wide = rule["wide"] if rule["wide"] is not None else rule["narrow"]
    return dict(
        maxNumberOfccc=rule["changes"], timeLimit=rule["seconds"], triggerCategory=rule["category"], triggerType=rule["kind"],
        volumeLimit64=wide)


def info_data(one):
    unit = one["granted"]
    grant = dict(
        tariffTimeChange=None if unit["switch"] is None else write_time(unit["switch"]), totalVolume=unit["volume"],
        time=None if unit["volume"] is not None else unit["seconds"])
    return dict(
        finalUnitIndication=None if one["last"] is None else dict(finalUnitAction=one["last"]),
        grantedUnit=grant if any(v is not None for v in grant.values()) else None, quotaHoldingTime=one["holding"],
        ratingGroup=one["group"], resultCode=one["code"], timeQuotaThreshold=one["seconds"],
        triggers=[rule_data(r) for r in one["triggers"]], validityTime=one["validity"], volumeQuotaThreshold=one["octets"])
