#!/usr/bin/env python3
"""Runs random scripts and checks what they are answered, outside the program.

usage: check_runs.py [run|step] COUNT [FIRST]

For each seed from FIRST (1) on it makes a script of 64 sessions over eight primaries that write and read eight keys, has
`mp init`, `mp run` (or `mp step`) and `mp recover` go over it in a temporary folder, and checks by docs/language.md that each
statement has its one answer, that each read shows the commits at or below its transaction's view with its own writes over
them, that commits have the timestamps from the base on, that each refusal has its cause, that no update is lost, and that the
rows behind `recover` are those of all commits. It stops at the first difference, with its seed."""
import os
import random
import subprocess
import sys
import tempfile

ROOT = os.path.dirname(os.path.dirname(os.path.abspath(__file__)))
MP = f"{ROOT}/crates/mp_app/out/mp_app"
SESSIONS, PRIMARIES, KEYS = 64, 8, 8


def script(seed):
    """Returns the lines of a script, and its statements by session: (verb, keys, value) in order."""
    rnd = random.Random(seed)
    lines = [f"primaries {PRIMARIES}"] + [f"session s{s} on {(s - 1) % PRIMARIES + 1}" for s in range(1, SESSIONS + 1)]
    stated, left, order = {s: [] for s in range(1, SESSIONS + 1)}, {}, []
    for s in stated:
        for _ in range(rnd.randint(1, 3)):
            body = [("begin",)]
            for _ in range(rnd.randint(1, 4)):
                verb, key = rnd.choice(["get", "put", "put", "del", "copy", "scan"]), rnd.randrange(KEYS)
                body.append((verb, key, rnd.randrange(KEYS) if verb == "copy" else rnd.randint(1, KEYS) if verb == "scan" else None))
            body.append((rnd.choice(["commit", "commit", "commit", "rollback"]),))
            left.setdefault(s, []).extend(body)
    while left:
        s = rnd.choice(list(left))
        for _ in range(rnd.randint(1, 3)):
            if s in left:
                it = left[s].pop(0)
                stated[s].append(it)
                order.append(s)
                value = f" v{s}.{len(stated[s])}" if it[0] == "put" else ""
                numbers = "".join(f" {n}" for n in it[1:] if n is not None)
                lines.append(f"s{s} {it[0]}{numbers}{value}")
                if not left[s]:
                    del left[s]
    return lines, stated, order


class Trx:
    """A transaction: its name, when it began among all, its view, its writes (key, value or None, index), and how it ended."""

    def __init__(self, name, age, view):
        self.name, self.age, self.view, self.writes, self.cts, self.refused = name, age, view, [], None, False


def expect(fact, what):
    if not fact:
        raise AssertionError(what)


def read_parts(text):
    """Returns the base, the answers by part as (session, index, words), and how many commits the end tells."""
    lines = text.splitlines()
    head = lines[0].split()
    base, parts, own = int(head[3]), {}, 0
    for line in lines[1:-1]:
        words = line.split(" ")
        if words[0] == "primary":
            own = int(words[1])
            parts[own] = []
        else:
            session, index = words[0][1:].split(".")
            parts.setdefault(own, []).append((int(session), int(index), words[1:]))
    expect(lines[-1].startswith("end commits "), "the last line")
    return base, parts, int(lines[-1].split()[2])


def transactions(stated, order, answers):
    """Returns the transactions, each answer with its own, in the order of the script's lines."""
    index, found, at = {s: 0 for s in stated}, [], {}
    for age, s in enumerate(order):
        index[s] += 1
        if stated[s][index[s] - 1][0] == "begin":
            words = answers[s, index[s]]
            expect(words[0] == "begin", f"s{s}.{index[s]} begins")
            found.append(Trx(f"s{s}.{index[s]}", age, int(words[1])))
            at[s] = found[-1]
        at[s, index[s]] = at[s]
    return found, at


def rows_at(trxs, view):
    rows = {}
    for t in sorted((t for t in trxs if t.cts is not None and t.cts <= view), key=lambda t: t.cts):
        for key, value, _ in t.writes:
            rows[key] = value
    return {key: value for key, value in rows.items() if value is not None}


def seen(trxs, t, index):
    rows = rows_at(trxs, t.view)
    for key, value, i in t.writes:
        if i < index:
            rows[key] = value
    return {key: value for key, value in rows.items() if value is not None}


def fill_ends(stated, answers, at):
    """Notes how each transaction ended, and in which of its statements it was refused."""
    for s, statements in stated.items():
        for i, it in enumerate(statements, 1):
            t, words = at[s, i], answers[s, i]
            if t.refused:
                expect(words == ["skipped"], f"s{s}.{i} is skipped")
            elif words[0] == "commit" and words[1] != "none":
                t.cts = int(words[1])
            elif it[0] in ("put", "del", "copy"):
                t.refused = words[1] != "ok"


def fill_writes(stated, answers, at, trxs):
    """Notes what each transaction wrote, which copies take from what they see: in the order of views, of which commits come later."""
    for t in sorted(trxs, key=lambda t: t.view):
        s, first = (int(n) for n in t.name[1:].split("."))
        for i in range(first + 1, len(stated[s]) + 1):
            if at[s, i] is not t:
                break
            it, words = stated[s][i - 1], answers[s, i]
            if it[0] in ("put", "del", "copy") and words[:2] == [it[0], "ok"]:
                key = it[2] if it[0] == "copy" else it[1]
                value = f"v{s}.{i}" if it[0] == "put" else None if it[0] == "del" else seen(trxs, t, i).get(it[1])
                t.writes.append((key, value, i))


def check_statement(s, i, it, words, t, trxs, names):
    here = f"s{s}.{i}"
    if words == ["skipped"]:
        return
    if it[0] == "get":
        value = seen(trxs, t, i).get(it[1])
        expect(words == (["get", "no", "row"] if value is None else ["get", value]), f"{here} sees {value}")
    elif it[0] == "scan":
        rows = sorted((k, v) for k, v in seen(trxs, t, i).items() if k >= it[1])[: it[2]]
        expect(words == ["scan", str(len(rows))] + [f"{k}={v}" for k, v in rows], f"{here} sees {rows}")
    elif it[0] in ("put", "del", "copy"):
        key = it[2] if it[0] == "copy" else it[1]
        if words[1] == "conflict":
            expect(any(o.cts == int(words[2]) > t.view and any(k == key for k, _, _ in o.writes) for o in trxs), f"{here} conflicts")
        elif words[1] == "held":
            o = names[words[2]]
            expect(o.age < t.age and any(k == key for k, _, _ in o.writes), f"{here} is held")
        else:
            expect(words[1] == "ok", f"{here} is ok, or has room")
        for name in words[words.index("after") + 1 :] if "after" in words else []:
            o = names[name]
            expect(o.age > t.age and any(k == key for k, _, _ in o.writes), f"{here} waits for {name}")
    elif it[0] == "commit":
        expect(words == (["commit", str(t.cts)] if t.writes else ["commit", "none"]), f"{here} commits")
    elif it[0] == "rollback":
        expect(words == ["rollback", "ok"], f"{here} rolls back")


def check_order(trxs, base, told):
    """Commits have the timestamps from the base on, above their views, and no update is lost."""
    ends = sorted(t.cts for t in trxs if t.cts is not None)
    expect(ends == list(range(base + 1, base + 1 + told)), "commits are counted")
    done = [t for t in trxs if t.cts is not None]
    for t in done:
        expect(base <= t.view < t.cts, f"{t.name} commits above its view")
        keys = {k for k, _, _ in t.writes}
        for o in done:
            expect(o is t or not (t.view < o.cts < t.cts and keys & {k for k, _, _ in o.writes}), f"{t.name} loses no update of {o.name}")


def check_views(parts, base):
    for part in parts.values():
        least = base
        for _, _, words in part:
            if words[0] == "begin":
                expect(int(words[1]) >= least, "a view covers the commits above it")
            elif words[0] == "commit" and words[1] != "none":
                least = max(least, int(words[1]))


def check(mode, stated, order, text, rows):
    base, parts, told = read_parts(text)
    expect(text.startswith(f"transcript {mode} "), "the mode")
    answers = {}
    for own, part in parts.items():
        last = {}
        for s, i, words in part:
            expect(own in (0, (s - 1) % PRIMARIES + 1) and i == last.get(s, 0) + 1, f"s{s}.{i} in its place")
            last[s] = i
            answers[s, i] = words
    expect(len(answers) == len(order), "each statement is answered")
    trxs, at = transactions(stated, order, answers)
    fill_ends(stated, answers, at)
    fill_writes(stated, answers, at, trxs)
    check_order(trxs, base, told)
    check_views(parts, base)
    names = {t.name: t for t in trxs}
    for s, statements in stated.items():
        for i, it in enumerate(statements, 1):
            if it[0] != "begin":
                check_statement(s, i, it, answers[s, i], at[s, i], trxs, names)
    want = [f"row {k} {v}" for k, v in sorted(rows_at(trxs, base + told).items())]
    expect([line for line in rows.splitlines() if line.startswith("row ")] == want, "the recovered rows")
    return told


def main():
    words = sys.argv[1:]
    mode = words.pop(0) if words and words[0] in ("run", "step") else "run"
    count, first = int(words[0]), int(words[1]) if words[1:] else 1
    commits = 0
    with tempfile.TemporaryDirectory() as folder:

        def mp(word, text=""):
            done = subprocess.run([MP, word], input=text, cwd=folder, capture_output=True, text=True)
            expect(done.returncode == 0, f"{word} ends with status {done.returncode}: {done.stdout[:200]}")
            return done.stdout

        for seed in range(first, first + count):
            lines, stated, order = script(seed)
            mp("init")
            text = mp(mode, "\n".join(lines) + "\n")
            try:
                commits += check(mode, stated, order, text, mp("recover"))
            except AssertionError as it:
                sys.exit(f"seed {seed}: not so: {it}")
    print(f"{count} scripts by {mode}, {commits} commits: no difference")


main()
