"""The containers of a session's reports: a report joins its group's open container unless a whole hour lies between that the
group's horizon does not have strictly within it, or the seconds would pass 2^32 - 1."""


def has_unsafe(horizon, after, until):
    """Whether a whole hour that is not strictly within the horizon lies after the one moment and not after the other."""
    hour = after // 3600 * 3600 + 3600
    while hour <= until:
        if horizon is None or not (horizon[0] < hour and (horizon[1] is None or hour < horizon[1])):
            return True
        if horizon[1] is None:
            return False
        hour = max(hour + 3600, horizon[1] // 3600 * 3600)
    return False


def meter(horizon, reports):
    groups, horizons, containers, opened, answers, last = {}, {}, [], {}, "", 0
    if horizon:
        group, begin, end = horizon.split(",")
        horizons[group] = (int(begin), None if end == "-" else int(end))
    for report in reports.split(";"):
        number, group, up, down, seconds, moment = report.split(",")
        number, up, down, seconds, moment = int(number), int(up), int(down), int(seconds), int(moment)
        expected = groups.get(group, 0) + 1
        if 1 <= number < expected:
            answers += "K"
        elif number != expected:
            answers += "E17"
        elif up > 2**40 or down > 2**40 or seconds > 86400:
            answers += "E19"
        elif moment < last:
            answers += "E18"
        elif len(containers) and sum(groups.values()) >= 2**20:
            answers += "E33"
        elif group not in groups and group not in horizons and len(set(groups) | set(horizons)) >= 16:
            answers += "E20"
        else:
            answers += "N"
            groups[group], last = number, moment
            one = opened.get(group)
            if one and one["seconds"] + seconds < 2**32 and not has_unsafe(horizons.get(group), one["last"], moment):
                one.update(up=one["up"] + up, down=one["down"] + down, seconds=one["seconds"] + seconds, last=moment)
            else:
                one = dict(lsn=len(containers) + 1, group=group, up=up, down=down, seconds=seconds, first=moment, last=moment)
                opened[group] = one
                containers.append(one)
    return " ".join([answers] + [",".join(str(value) for value in one.values()) for one in containers])
