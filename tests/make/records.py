#!/usr/bin/env python3
"""records.py: prints the lines of the table `record` of crates/acceptance/stdin: octets, and how many of them the record takes,
how many of its fields are not known and how it is written, or the octet of the first fault. It makes each fault at a place that
it knows, and knows nothing of the program.
"""

def length(n):
    if n < 128: return bytes([n])
    b = n.to_bytes((n.bit_length() + 7) // 8, "big")
    return bytes([128 + len(b)]) + b

def tag(cls, con, number):
    first = cls * 64 + con * 32
    if number < 31: return bytes([first + number])
    digits = [number % 128]
    number //= 128
    while number:
        digits.append(128 + number % 128); number //= 128
    return bytes([first + 31]) + bytes(reversed(digits))

def prim(number, contents, cls=2): return tag(cls, 0, number) + length(len(contents)) + contents
def con(number, parts, cls=2):
    inner = b"".join(parts)
    return tag(cls, 1, number) + length(len(inner)) + inner
def indef(number, parts, cls=2): return tag(cls, 1, number) + b"\x80" + b"".join(parts) + b"\0\0"
def num(number, n):
    size = 1
    while n >= 1 << (8 * size - 1): size += 1
    return prim(number, n.to_bytes(size, "big"))
def stamp(number, text): return prim(number, bytes.fromhex(text) + b"\x2B\0\0")
def used(lsn=1, seconds=60, up=1000, down=2000, first="260102030500", last="260102030600", kinds=("FINAL",), moment="260102030700"):
    f = [num(0, lsn), num(1, seconds), num(2, up), num(3, down), stamp(4, first), stamp(5, last)]
    if kinds: f.append(con(6, [prim(12, k.encode(), 0) for k in kinds]))
    f.append(stamp(7, moment))
    return f
def usage(group=10, containers=None): return [num(0, group), con(1, [con(16, c, 0) for c in (containers if containers is not None else [used()])])]
def fields(usages=None):
    f = {0: num(0, 200), 1: prim(1, b"chf1"), 2: prim(2, b"imsi-001010000000001"), 3: prim(3, b"smf1")}
    u = usages if usages is not None else [usage()]
    if u: f[5] = con(5, [con(16, x, 0) for x in u])
    f.update({6: stamp(6, "260102030405"), 7: num(7, 180), 8: num(8, 1), 9: num(9, 0), 11: num(11, 1), 13: con(13, [num(0, 7)])})
    return f
rows = []
def row(octets, answer): rows.append("record\t%s\t%s" % (octets.hex().upper(), answer))
def good(octets, unknown=0, same=None): row(octets, "%d %d %s" % (len(octets), unknown, (same or octets).hex().upper()))
F = fields()
R = con(200, F.values())
assert len(R) == 139, len(R)
good(R)
good(indef(200, F.values()), 0, R)
row(con(200, F.values()).replace(b"\x81\x86", b"\x81\x87", 1), "!0")
row(R + b"\xFF", "139 0 " + R.hex().upper())
order = list(F.values())
good(con(200, reversed(order)), 0, R)
body = lambda f: con(200, f.values())
for k in F:                                     # a missing field: at the record, but the unit usages may be absent
    g = {n: v for n, v in F.items() if n != k}
    if k == 5: good(body(g))
    else: row(body(g), "!0")
for k in F: row(con(200, order + [F[k]]), "!0") # a repeated one: at the record
def at(f, k):                                   # where a field begins
    n = 0
    for j in f:
        if j == k: break
        n += len(f[j])
    return len(body(f)) - sum(map(len, f.values())) + n
def wrong(k, octets, inner=0):
    g = dict(F); g[k] = octets
    row(body(g), "!%d" % (at(g, k) + inner))
for k in (1, 2, 3): wrong(k, prim(k, b"\xFF"))
for k in F: wrong(k, bytes([F[k][0] ^ 32]) + F[k][1:])          # of another form
for k in (0, 7, 8, 9, 11):
    wrong(k, prim(k, b"")); wrong(k, prim(k, b"\x80")); wrong(k, prim(k, b"\0\1"))
wrong(0, num(0, 201)); wrong(0, num(0, 199))
wrong(9, num(9, 256)); wrong(7, num(7, 2 ** 32)); wrong(8, num(8, 2 ** 32)); wrong(11, num(11, 2 ** 32))
for k, n in ((9, 255), (7, 2 ** 32 - 1), (8, 2 ** 32 - 1), (11, 2 ** 32 - 1), (8, 0), (8, 127), (8, 128), (8, 32768)):
    g = dict(F); g[k] = num(k, n); good(body(g))
for t in ("691231235959", "700101000000"):
    g = dict(F); g[6] = stamp(6, t); good(body(g))
for t in ("260230030405", "261302030405", "260102240405", "260102036005", "260102030460", "2601020304FF"): wrong(6, stamp(6, t))
wrong(6, prim(6, bytes.fromhex("260102030405") + b"\x2B\0"))
wrong(5, con(5, []))                                            # a list of none
wrong(5, con(5, [con(17, usage(), 0)]), 2)                      # an element of another tag in a list
wrong(13, con(13, []))
wrong(13, con(13, [num(0, 7), num(0, 7)]))
wrong(13, con(13, [num(0, 2 ** 32)]), 2)
g = dict(F); g[13] = con(13, [num(4, 7), num(0, 7), con(900, [num(0, 7)])]); good(body(g), 2, R)
g = dict(F); g[4] = prim(4, b""); g[77] = con(77, [prim(1, b"x"), con(3, [])]); g[10] = prim(10, b"\xFF"); good(body(g), 3, R)
def with_usage(u): g = dict(F); g[5] = con(5, [con(16, u, 0)]); return g
def in_usage(u, inner):                                         # a fault at an octet of the unit usage's contents; -1 at the unit usage
    g = with_usage(u); o = con(16, u, 0); head = len(o) - sum(map(len, u)); outer = len(g[5]) - len(o)
    row(body(g), "!%d" % (at(g, 5) + outer + (0 if inner < 0 else head + sum(map(len, u[:inner])))))
U = usage()
in_usage([U[0]], -1); in_usage([U[1]], -1); in_usage([U[0], U[0], U[1]], -1); in_usage([U[1], U[0]], 1); in_usage([U[0], U[1], U[0]], -1)
good(body(with_usage(usage(10, []))))
good(body(with_usage([prim(9, b""), U[0], con(3, []), U[1], prim(2, b"")])), 3, R)
def in_used(c, inner):
    u = usage(10, [c]); g = with_usage(u); o = con(16, c, 0); head = len(o) - sum(map(len, c))
    lists = len(u[1]) - len(o); whole = con(16, u, 0); before = len(whole) - sum(map(len, u)) + len(u[0]) + lists
    outer = len(g[5]) - len(whole)
    row(body(g), "!%d" % (at(g, 5) + outer + before + (0 if inner < 0 else head + sum(map(len, c[:inner])))))
C = used()
for k in range(8):
    if k != 6: in_used(C[:k] + C[k + 1:], -1)
    in_used(C + [C[k]], -1)
    if k: in_used(C[:k - 1] + [C[k], C[k - 1]] + C[k + 1:], k)
in_used(C[:2] + [num(2, 2 ** 64)] + C[3:], 2)
in_used(C[:6] + [con(6, [])] + C[7:], 6)
good(body(with_usage(usage(10, [C[:6] + C[7:]]))))
for n in (0, 127, 128, 255, 256, 32767, 32768, 2 ** 31, 2 ** 47, 2 ** 55 - 1, 2 ** 62, 2 ** 63 - 1, 2 ** 63, 2 ** 64 - 1):
    good(body(with_usage(usage(10, [used(up=n)]))))
good(body(with_usage(usage(10, [[prim(8, b"")] + C[:3] + [prim(30, b"x")] + C[3:]]))), 2, R)
good(con(200, fields([usage(10, [used(), used(2), used(3, kinds=("QUOTA_THRESHOLD", "RAT_CHANGE"))]), usage(2 ** 32 - 1, [])]).values()))
deep = prim(1, b"")
for n in range(14): deep = con(2000 if n == 3 else 4, [deep])
good(con(200, order + [deep]), 1, R)                                             # 16 within each other
o = con(200, order + [con(4, [deep])])
row(o, "!%d" % (len(o) - 2))                                                     # the 17th is the last element, of two octets
# the record of the run of a Create, an Update and a Release: 212 octets
two = [used(1, 60, 400000, 500000, "260102032000", "260102032000", ("QUOTA_THRESHOLD",), "260102032000"),
       used(2, 5, 0, 100000, "260102033000", "260102033000", ("FINAL",), "260102033000")]
g = fields([usage(10, two)]); g[7] = num(7, 1555)
assert body(g).hex().startswith("bf814881cf800200c8") and len(body(g)) == 212
good(body(g))
for end in range(len(R)): row(R[:end], "!0")    # cut at each octet: the record goes past the end
def indefinite(octets):                         # the same elements with indefinite lengths, each with its start, its contents' start and those in it
    def walk(at, end, place):
        made, spans = b"", []
        while at < end:
            start = at; at += 1
            if octets[start] % 32 == 31:
                while octets[at] >= 128: at += 1
                at += 1
            head = octets[start:at]; size = octets[at]; at += 1
            if size > 128: count = size - 128; size = int.from_bytes(octets[at:at + count], "big"); at += count
            begins = place + len(made)
            if head[0] & 32:
                inner, within = walk(at, at + size, begins + len(head) + 1)
                made += head + b"\x80" + inner + b"\0\0"
                spans.append((begins, begins + len(head) + 1, within, place + len(made)))
            else:
                made += octets[start:at + size]
                spans.append((begins, None, [], place + len(made)))
            at += size
        return made, spans
    return walk(0, len(octets), 0)
def cut(span, end):                             # the fault of the element that is not whole
    start, contents, within, last = span
    if contents is None or end < contents: return start
    for other in within:
        if end == other[0]: return start        # the end of contents is missing
        if end < other[3]: return cut(other, end)
    return start if end == last - 2 else last - 2
open_ended, (span,) = indefinite(R)
good(open_ended, 0, R)
for end in range(len(open_ended)): row(open_ended[:end], "!%d" % cut(span, end))
answers = dict(line.split("\t")[1:] for line in rows)
if __name__ == "__main__": print("\n".join(rows))
