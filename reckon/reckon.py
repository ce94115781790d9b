"""A literal, slow reckoning of the planner, straight from the rules."""
SLOTS = 4032

class Refused(Exception):
    def __init__(self, n): self.n = n

class Fault(Exception):
    def __init__(self, n, layer, record, byte):
        self.n, self.layer, self.record, self.byte = n, layer, record, byte
    def line(self):
        return f"REFUSED {self.n} {self.layer} {self.record} {self.byte}\n"

# ---- board ---------------------------------------------------------------
class Row:
    def __init__(self, f, b, r, d, p, c):
        self.f, self.b, self.p, self.c = f, b, p, c
        self.entered = (r, d); self.present = (r, d)

class Board:
    def __init__(self): self.C = 1; self.rows = []
    def build(self, C):
        if not 1 <= C <= 4095: raise Refused(1)
        self.C = C; self.rows = []
    def find(self, f, b):
        for i, x in enumerate(self.rows):
            if (x.f, x.b) == (f, b): return i
        return None
    def enter(self, f, b, r, d, p, c):
        if f > 255: raise Refused(2)
        if not 5 <= b <= 15: raise Refused(3)
        if not 1 <= p <= SLOTS: raise Refused(4)
        if not 1 <= c <= self.C: raise Refused(5)
        if d > SLOTS or r + p > d: raise Refused(6)
        if self.find(f, b) is not None: raise Refused(7)
        if len(self.rows) >= 64: raise Refused(8)
        self.rows.append(Row(f, b, r, d, p, c))
    def reset(self):
        for x in self.rows: x.present = x.entered
    def withdraw(self, f, b):
        i = self.find(f, b)
        if i is None: raise Refused(9)
        del self.rows[i]; self.reset()
    def rebook(self, f, b, r, d):
        i = self.find(f, b)
        if i is None: raise Refused(9)
        if d > SLOTS or r + self.rows[i].p > d: raise Refused(6)
        self.rows[i].entered = (r, d); self.reset()
    def sheet(self):
        return (self.C, [(x.present[0], x.present[1], x.p, x.c) for x in self.rows])

def place(f, b):
    if f > 255: raise Refused(2)
    if not 5 <= b <= 15: raise Refused(3)
    return f * 11 + b - 5

# ---- sheets --------------------------------------------------------------
def mirror(sh):
    C, es = sh
    return (C, [(SLOTS - d, SLOTS - r, p, c) for r, d, p, c in es])

def cut(sh, k, e):
    C, es = sh
    if k >= len(es): return sh
    r, d, p, c = es[k]
    if not r + p <= e <= d: return sh
    return (C, es[:k] + [(r, e, p, c)] + es[k+1:])

# ---- rules: evidence(sheet) -> None or (t1, t2); starts(sheet) -> list -----
class T:
    letter = "T"
    @staticmethod
    def usage(sh):
        u = [0] * SLOTS
        for r, d, p, c in sh[1]:
            for t in range(d - p, r + p): u[t] += c
        return u
    @staticmethod
    def evidence(sh):
        u = T.usage(sh)
        for t in range(SLOTS):
            if u[t] > sh[0]: return (t, t + 1)
        return None
    @staticmethod
    def starts(sh):
        u = T.usage(sh); C = sh[0]; out = []
        for r, d, p, c in sh[1]:
            v = u[:]
            for t in range(d - p, r + p): v[t] -= c
            ans = d - p + 1
            for s in range(r, d - p + 1):
                if all(v[t] + c <= C for t in range(s, s + p)): ans = s; break
            out.append(ans)
        return out

class E:
    letter = "E"
    @staticmethod
    def evidence(sh):
        C, es = sh
        for t1 in sorted({e[0] for e in es}):
            for t2 in sorted({e[1] for e in es}):
                if t1 < t2 and sum(p * c for r, d, p, c in es if r >= t1 and d <= t2) > C * (t2 - t1):
                    return (t1, t2)
        return None
    @staticmethod
    def starts(sh):
        C, es = sh
        if E.evidence(sh) is not None: return [e[0] for e in es]
        out = []
        for k, (r, d, p, c) in enumerate(es):
            for e in range(r + p, d + 1):
                if E.evidence(cut(sh, k, e)) is None: break
            else: raise AssertionError
            out.append(e - p)
        return out

def left(e, t1): return max(0, e[2] - max(0, t1 - e[0]))
def right(e, t2): return max(0, e[2] - max(0, e[1] - t2))
def energy(e, t1, t2): return e[3] * min(t2 - t1, left(e, t1), right(e, t2))
def slack(sh, t1, t2): return sh[0] * (t2 - t1) - sum(energy(e, t1, t2) for e in sh[1])

class S:
    letter = "S"
    @staticmethod
    def candidates(sh):
        es = sh[1]; starts = set(); ends = set(); out = set()
        for r, d, p, c in es:
            starts |= {r, d - p, r + p}; ends |= {d, r + p, d - p}
        for a in starts:
            for b in ends: out.add((a, b))
            for r, d, p, c in es: out.add((a, r + d - a))
        for b in ends:
            for r, d, p, c in es: out.add((r + d - b, b))
        return sorted((a, b) for a, b in out if 0 <= a < b <= SLOTS)
    @staticmethod
    def evidence(sh):
        for a, b in S.candidates(sh):
            if slack(sh, a, b) < 0: return (a, b)
        return None
    @staticmethod
    def starts(sh):
        C, es = sh
        if S.evidence(sh) is not None: return [e[0] for e in es]
        out = [e[0] for e in es]
        for a, b in S.candidates(sh):
            en = [energy(e, a, b) for e in es]; tot = sum(en)
            for k, e in enumerate(es):
                r, d, p, c = e
                if b < d:
                    X = tot - en[k] + c * min(b - a, left(e, a)) - C * (b - a)
                    if X > 0: out[k] = max(out[k], b + -(-X // c) - p)
        return out

RULES = {"T": T, "E": E, "S": S}

# ---- apply, sweep ----------------------------------------------------------
def figures(board, rule):
    sh = board.sheet()
    a = rule.starts(sh); m = mirror(sh); b = rule.starts(m)
    rel = [max(e[0], s) for e, s in zip(sh[1], a)]
    dead = [SLOTS - max(e[0], s) for e, s in zip(m[1], b)]
    return rel, dead

def apply(board, rule):
    ev = rule.evidence(board.sheet())
    if ev is not None: return ("overfull", ev)
    rel, dead = figures(board, rule)
    for i, x in enumerate(board.rows):
        if dead[i] - rel[i] < x.p: return ("squeezed", i)
    changed = False
    for i, x in enumerate(board.rows):
        w = (rel[i], dead[i])
        changed |= w != x.present
        x.present = w
    return ("narrowed",) if changed else ("quiet",)

def by_letter(board, letter):
    if letter not in RULES: raise Refused(10)
    return apply(board, RULES[letter])

def sweep(board, rules=(T, E, S), limit=None):
    rounds = 0
    while True:
        rounds += 1; quiet = True
        for rule in rules:
            a = apply(board, rule)
            if a[0] == "overfull": return ("OVERFULL", rule.letter, a[1], rounds)
            if a[0] == "squeezed": return ("SQUEEZED", rule.letter, a[1], rounds)
            quiet &= a[0] == "quiet"
        if quiet: return ("SETTLED", rounds)
        if limit and rounds >= limit: return ("LIMIT", rounds)

def report(board, v):
    out = f"C {board.C} ROWS {len(board.rows)}\n"
    for x in board.rows: out += f"{x.f} {x.b} {x.present[0]} {x.present[1]}\n"
    if v[0] == "SETTLED": out += f"SETTLED {v[1]}\n"
    elif v[0] == "OVERFULL": out += f"OVERFULL {v[1]} {v[2][0]} {v[2][1]} {v[3]}\n"
    else: out += f"SQUEEZED {v[1]} {v[2]} {v[3]}\n"
    return out

# ---- file -----------------------------------------------------------------
def number(data, at, record):
    n = 0
    for g in range(3):
        if at + g >= len(data): raise Fault(11, 1, record, at)
        x = data[at + g]
        n |= (x & 127) << (7 * g)
        if x < 128: return n, at + g + 1
    raise Fault(12, 1, record, at)

def text(data, at, record):
    n, a = number(data, at, record)
    if n > 200: raise Fault(14, 2, record, at)
    if a + n > len(data): raise Fault(15, 2, record, at)
    return a + n

def load(board, data):
    at = 0
    C, nxt = number(data, at, 0)
    try: board.build(C)
    except Refused as e: raise Fault(e.n, 3, 0, 0)
    at = nxt
    count, nxt = number(data, at, 0)
    if count > 128: raise Fault(16, 3, 0, at)
    at = nxt
    for k in range(1, count + 1):
        begin = at
        kind, at = number(data, at, k)
        if kind > 1: raise Fault(13, 2, k, begin)
        if kind == 0: at = text(data, at, k); continue
        v = []
        for _ in range(6):
            x, at = number(data, at, k); v.append(x)
        at = text(data, at, k)
        f, b, r, d, p, c = v
        try: board.enter(f, b, r, d, p, c)
        except Refused as e: raise Fault(e.n, 3, k, begin)
    if at < len(data): raise Fault(17, 3, count, at)

def plan(data, limit=None):
    b = Board()
    try: load(b, data)
    except Fault as f: return f.line(), None
    v = sweep(b, limit=limit)
    return report(b, v) if v[0] != "LIMIT" else None, v

# ---- writing files -----------------------------------------------------------
def num(n):
    if n < 128: return bytes([n])
    if n < 1 << 14: return bytes([n & 127 | 128, n >> 7])
    return bytes([n & 127 | 128, n >> 7 & 127 | 128, n >> 14])
def txt(s): return num(len(s)) + s
def rec(f, b, r, d, p, c, label=b""):
    return num(1) + b"".join(map(num, (f, b, r, d, p, c))) + txt(label)
def note(s): return num(0) + txt(s)
def camp(C, recs): return num(C) + num(len(recs)) + b"".join(recs)

if __name__ == "__main__":
    h = bytes.fromhex("0103 0101050004020100 0101060004010100 010205000A020100")
    print(plan(h)[0], end="")
    print(plan(b"\x01\x00")[0], end="")
