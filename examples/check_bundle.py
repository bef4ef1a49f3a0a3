#!/usr/bin/env python3
"""Checks a certificate of version 2 under P_k, and prints what `desk verify` prints of it.

Usage: check_bundle.py QRELS CERTIFICATE RUN RUN...   (RUN is PATH or NAME=PATH)

Written from docs/file-formats.md alone. It reads the certificate strictly, takes judgements and runs as well formed and within
their limits, and knows no measure but P_k. A byte is read as the character with its number (Latin-1).
"""
import os, re, sys
from decimal import Decimal

MEASURE = r"(P_|recall_)([1-9][0-9]{0,3}|10000)|Rprec|recip_rank|rbp_0\.[0-9]{0,5}[1-9]"

# A kind of field gives what a text says as such a field, or None.
def number(least, most):
    return lambda text: int(text) if re.fullmatch("0|-?[1-9][0-9]{0,18}", text) and least <= int(text) <= most else None
def name_after(last):
    return lambda text: text if re.fullmatch(r"[^\0-\x20\x7f]{1,255}", text) and last < text else None
def form(pattern):
    return lambda text: text if re.fullmatch(pattern, text) else None
COUNT, BOUND = number(0, 25_000_000), number(-(10**19) + 1, 10**19 - 1)

class Lines:
    """The lines of a certificate. `at` is the number of the last one that was taken."""
    def __init__(self, path):
        *self.whole, self.rest = open(path, encoding="latin-1", newline="\n").read().split("\n")
        self.path, self.at = path, 0
    def want(self, can_stand):
        if not can_stand:
            sys.exit(f"refused: {self.path} line {self.at}: BadLine")
    def take(self, word, *kinds):
        """The fields of the next line after its word, each of its kind."""
        self.at += 1
        first, *fields = self.whole[self.at - 1].split(" ") if self.at <= len(self.whole) else [""]
        values = [kind(field) for kind, field in zip(kinds, fields)]
        self.want(first == word and len(fields) == len(kinds) and None not in values)
        return values
    def names(self, word, count):
        names = [""]
        for _ in range(count):
            names += self.take(word, name_after(names[-1]))
        return names[1:]
    def picks(self, word, docs):
        """The documents of a list, each with its line."""
        picks, pick = [], -1
        for _ in range(*self.take(word, COUNT)):
            pick, = self.take("pick", number(pick + 1, len(docs) - 1))
            picks.append((docs[pick], self.at))
        return picks

def read_certificate(path):
    """k, the level, runs, topics (name, line, documents) and claims (word, two runs, one row for each topic)."""
    lines, topics, claims, last = Lines(path), [("", 0, [])], [], []
    lines.take("desk-certificate", form("2"))
    (measure,), (level,) = lines.take("measure", form(MEASURE)), lines.take("level", number(1, 1_000))
    runs = lines.names("run", *lines.take("runs", number(2, 256)))
    for _ in range(*lines.take("topics", number(1, 10_000))):
        topic, count = lines.take("topic", name_after(topics[-1][0]), COUNT)
        topics.append((topic, lines.at, lines.names("doc", count)))
    for _ in range(*lines.take("claims", number(0, 32_640))):
        word, *pair = lines.take("claim", form("above|equal|open"), *[number(0, len(runs) - 1)] * 2)
        lines.want(pair[0] != pair[1] and last < sorted(pair))
        last, bounds = sorted(pair), [BOUND] * (2 if word == "equal" else 1)
        rows = [[lines.picks("low", docs), lines.picks("high", docs)] if word == "open" else lines.take("bound", *bounds)
                for _, _, docs in topics[1:]]
        claims.append((word, runs[pair[0]], runs[pair[1]], rows))
    lines.take("end")
    lines.at += 1
    lines.want(lines.at > len(lines.whole) and not lines.rest)
    return int(measure[2:]) if measure[:2] == "P_" else sys.exit("not P_k"), level, runs, topics[1:], claims

def rows_of(path):
    """The fields of each line that is not blank."""
    return filter(None, (re.findall(r"[^ \t\r\n]+", line) for line in open(path, encoding="latin-1", newline="\n")))

def read_run(word, topics):
    """The name of a run, and its documents on each topic, the best first."""
    name, path = word.split("=", 1) if "=" in word else ("", word)
    name, scored = os.fsencode(name).decode("latin-1"), {topic: [] for topic in topics}
    for topic, _, doc, _, score, tag in rows_of(path):
        name = name or tag
        scored.get(topic, []).append((Decimal(score), doc))
    return name, {topic: [doc for _, doc in sorted(rows, reverse=True)] for topic, rows in scored.items()}

def failure(word, rows, places):
    """Why a claim is no evidence. A place: a topic, both runs' first k documents, those judged relevant, those unjudged."""
    low = high = 0
    for row, (topic, a, b, relevant, unjudged) in zip(rows, places):
        if word == "open":
            if wrong := [line for doc, line in row[0] + row[1] if doc not in unjudged]:
                return f"NotCompletion line {wrong[0]}"
            row = [len(a & true) - len(b & true) for true in (relevant.union(doc for doc, _ in picks) for picks in row)]
        elif (row[0] > len((a - b) & relevant) - len((b - a) & (relevant | unjudged))
              or word == "equal" and row[1] < len((a - b) & (relevant | unjudged)) - len((b - a) & relevant)):
            return f"BoundTooGreat topic {topic}"
        low, high = low + row[0], high + row[-1]
    shown = {"above": low > 0, "equal": low >= 0 >= high, "open": low < 0 <= high or low <= 0 < high}
    return None if shown[word] else "NoDifference" if word == "open" else "NoSum"

def answer(qrels, certificate, *words):
    (k, level, runs, topics, claims), grades = read_certificate(certificate), {}
    for topic, _, doc, grade in rows_of(qrels):
        grades.setdefault(topic, {})[doc] = int(grade)
    ours, names, marks = dict(read_run(word, grades) for word in words), sorted(grades), []
    wrong = [5 + at for at, run in enumerate(runs) if run not in ours] + [5 + len(runs)] * (len(topics) != len(names))
    if wrong := wrong + [line for (topic, line, _), name in zip(topics, names) if topic != name]:
        return f"rejected WrongNames line {wrong[0]}"
    for topic in names:
        universe = set(grades[topic]).union(*(ranking[topic] for ranking in ours.values()))
        relevant = {doc for doc, grade in grades[topic].items() if grade >= level}
        marks.append((relevant, {doc for doc in universe if grades[topic].get(doc, -1) < 0}))
    for claim, (word, *pair, rows) in enumerate(claims, 1):
        tops = [[set(ours[run][topic][:k]) for run in pair] for topic in names]
        if why := failure(word, rows, [(topic, *top, *mark) for topic, top, mark in zip(names, tops, marks)]):
            return f"rejected claim {claim} {why}"
    return "accepted"

text = answer(*sys.argv[1:])
sys.stdout.buffer.write(f"{text}\n".encode("latin-1"))
sys.exit(0 if text == "accepted" else 5)
