#!/usr/bin/env python3
"""The stored cases of the case program: inputs, and the listings that a second version of document 01 gives for them.
Written after the page, with lists and tuples and no word layout; nothing here reads the proved program's output."""
import os, random, struct, sys

P = 2147483647

class Store:
    def __init__(self, r=4, Q=4, D=8, L=2, a0=1, b0=0, a1=536870912, b1=0):
        self.r, self.Q, self.D, self.L = r, Q, D, L
        self.functions = ((a0, b0), (a1, b1))
        self.tables = [[None] * r, [None] * r]
        self.queue, self.marked = [], []

    def home(self, t, x):
        a, b = self.functions[t]
        return (a * x + b) % P % self.r

    def lookup(self, x):
        """where find would find x: ('cell', t, i), ('queue', j) or None; and the value there"""
        for t in (0, 1):
            i = self.home(t, x)
            if self.tables[t][i] is not None and self.tables[t][i][0] == x:
                return ("cell", t, i), self.tables[t][i][1]
        for j, (y, v, side) in enumerate(self.queue):
            if y == x:
                return ("queue", j), v
        return None, 0

    def step(self):
        """one step: whether it was a move"""
        y, v, side = self.queue[0]
        i = self.home(side, y)
        there = self.tables[side][i]
        if there is None:
            self.tables[side][i] = (y, v)
            self.queue.pop(0)
            self.marked = []
            return 0
        if (y, side) in self.marked or len(self.marked) == self.D:
            self.queue.append(self.queue.pop(0))
            self.marked = []
            return 0
        self.marked.append((y, side))
        self.tables[side][i] = (y, v)
        self.queue[0] = (there[0], there[1], 1 - side)
        return 1

    def run(self, budget):
        steps = moves = 0
        while steps < budget and self.queue:
            moves += self.step()
            steps += 1
        return 0, 0, steps, moves

    def call(self, mark, key, value):
        """refusal, value, steps, moves; the first number in the order 4, 8, 5, 7, 6 wins"""
        if mark == "ST":
            return (8, 0, 0, 0) if key > self.L else self.run(key)
        if key == 0 or key > P:
            return 4, 0, 0, 0
        where, held = self.lookup(key)
        if mark == "DF":
            if where: return 5, held, 0, 0
            if len(self.queue) == self.Q: return 6, 0, 0, 0
            self.queue.append((key, value, 0))
            return self.run(self.L)
        if not where: return 7, 0, 0, 0
        if mark == "CH":
            if where[0] == "cell": self.tables[where[1]][where[2]] = (key, value)
            else: self.queue[where[1]] = (key, value, self.queue[where[1]][2])
        if mark == "RM":
            if where[0] == "cell": self.tables[where[1]][where[2]] = None
            else: self.queue.pop(where[1])
        return 0, held, 0, 0

def record(mark, key, value=0):
    return mark.encode() + struct.pack("<II", key, value)

def listing(data):
    store, place, lines = Store(), 0, []
    while place != len(data):
        ten = data[place:place + 10]
        mark = ten[:2].decode("latin-1")
        key, value = struct.unpack("<II", ten[2:]) if len(ten) == 10 else (0, 0)
        if len(ten) < 10 or mark not in ("DF", "CH", "FD", "RM", "ST") or (mark in ("FD", "RM", "ST") and value):
            lines.append("?? %d 10 0 0 0" % place)
            break
        lines.append("%s %d %d %d %d %d" % ((mark, key) + store.call(mark, key, value)))
        place += 10
    return "".join(l + "\n" for l in lines)

SIX = [("DF", 1, 10), ("DF", 5, 20), ("DF", 5, 21), ("FD", 5, 0), ("RM", 9, 0), ("ST", 2, 0)]
SIX_LISTING = "DF 1 0 0 1 0\nDF 5 0 0 2 1\nDF 5 5 20 0 0\nFD 5 0 20 0 0\nRM 9 7 0 0 0\nST 2 0 0 0 0\n"

def joined(records): return b"".join(record(*r) for r in records)

def random_records(seed, count, keys):
    g = random.Random(seed)
    marks = ["DF"] * 6 + ["CH"] * 2 + ["FD"] * 3 + ["RM"] * 2 + ["ST"] * 2
    out = []
    for _ in range(count):
        m = g.choice(marks)
        k = g.randrange(4) if m == "ST" else g.choice(keys)
        out.append((m, k, g.getrandbits(32) if m in ("DF", "CH") else 0))
    return out

# keys 1, 17, 33, 49 have the same two homes; 13, 5, 9, 21 share cells with them
CROWD = [1, 17, 33, 49, 5, 9, 13, 21]

def cases():
    c = {}
    c["empty"] = b""
    c["refusals"] = joined(
        [("FD", 0), ("DF", 0, 1), ("CH", 0, 1), ("RM", 0), ("FD", P + 1), ("DF", 4294967295, 1), ("CH", P + 1, 1), ("RM", 4294967295)]
        + [("FD", 1), ("CH", 1, 9), ("RM", 1), ("ST", 3), ("ST", 4294967295), ("ST", 0)]
        + [("DF", k, 16909060 + k) for k in CROWD]                      # values with four different bytes
        + [("DF", k, 7) for k in (1, 17, 33, 49)]                       # found, in cells and waiting: 5 with the value held
        + [("DF", 0, 7), ("DF", 25, 7)]                                 # 4 before 6; 6
        + [("FD", 25), ("CH", 25, 7), ("RM", 25)]                       # 7
        + [("CH", k, 4278255360 + k) for k in CROWD] + [("FD", k) for k in CROWD]
        + [("RM", k) for k in (33, 1)] + [("ST", 2), ("ST", 1), ("DF", P, 4294967295), ("FD", P), ("RM", P), ("ST", 2)]
    ) + b"FD\x01\x00\x00\x00\x00\x00\x00\x01"                           # a spare word whose highest byte is not zero
    c["cut_9"] = joined(SIX[:2]) + record("FD", 5)[:9]
    c["cut_1"] = joined(SIX) + b"D"
    c["cut_at_front"] = b"ST"
    c["unknown_mark"] = joined(SIX[:3]) + record("DG", 1, 0) + joined(SIX[3:])
    c["swapped_mark"] = joined(SIX[:1]) + record("MR", 1, 0)
    c["small_letters"] = record("fd", 1, 0)
    c["spare_fd"] = joined(SIX[:2]) + record("FD", 5, 1) + joined(SIX[4:])
    c["spare_rm"] = joined(SIX[:2]) + record("RM", 5, 256)
    c["spare_st"] = joined(SIX[:2]) + record("ST", 2, 16777216)
    c["long"] = joined(random_records(1, 300, CROWD + [2, 3, 6, 10, P]))
    c["long_then_bad"] = joined(random_records(2, 150, CROWD + [4, 8, 12])) + record("XX", 1, 1) + joined(SIX)
    return c

def examples(root):
    """the records of examples/, which a reader of the README runs"""
    names = sorted(n for n in os.listdir(root + "/examples") if n.endswith(".records"))
    return {n[:-len(".records")]: open(root + "/examples/" + n, "rb").read() for n in names}

def write(path, data):
    os.makedirs(os.path.dirname(path), exist_ok=True)
    with open(path, "wb") as f: f.write(data)

def main(root):
    six = joined(SIX)
    assert listing(six) == SIX_LISTING
    write(root + "/crates/case/stdin", six)
    write(root + "/crates/case/stdout", listing(six).encode())
    all_cases = dict(cases(), **examples(root))
    told = ""
    for name, data in all_cases.items():
        write(root + "/crates/case_files/data/" + name, data)
        told += name + "\n" + listing(data)
    write(root + "/crates/case_files/args", "".join(n + "\n" for n in all_cases).encode())
    write(root + "/crates/case_files/stdout", told.encode())
    numbers = {l.split()[2] for d in all_cases.values() for l in listing(d).splitlines()}
    assert numbers == {"0", "4", "5", "6", "7", "8", "10"}, numbers
    assert {l.split()[2] for l in listing(all_cases["refusals"]).splitlines()} == numbers

if __name__ == "__main__": main(sys.argv[1])
