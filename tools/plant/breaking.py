#!/usr/bin/env python3
"""Finds, for a fault in the rules, a short run after whose last call a promise is broken.

    breaking.py [FAULT].. [--tries N] [--seed N]

A refusal of the prover may only say that a proof no longer fits. This says that the fault really breaks a promise: the
rules (docs/memory-rules.md, steps.md, door-rules.md) stand here once more as a small model, each fault of FAULTS
changes them as the fault 'alike-FAULT' of faults.txt does, and drawn runs are checked against docs/promise.md after
every call. Those that break it are cut down as far as it goes, and the shortest is printed. Without a fault no run is
found.

Runs are those of a board of three cards, three nodes and one counter, written as the events of a schedule.
"""

import argparse
import copy
import random

CARDS, NODES = 3, 3
TAIL, COUNTER = 0, 1 + 4 * NODES
NEXT, PREV, STATE, SPIN = 1, 2, 3, 4
READER, WRITER, ACTIVE = 1, 2, 3
FULL = 65_535


def cell(link, field):
    """A cell of the node that a link names; the tail for the link of nobody."""
    return field + 4 * (link - 1) if link else TAIL


class Memory:
    """Standing values and transactions. An open transaction is its marks and its writes, a doomed one is False."""

    def __init__(self, rules):
        self.cells = [0] * 137
        self.open = [None] * CARDS
        self.rules = rules

    def doom(self, card, at, writes):
        for other, tx in enumerate(self.open):
            if other != card and tx:
                wrote = at in tx[1] and (writes or self.rules.reads_doom)
                if wrote or (writes and at in tx[0] and self.rules.markers_doomed):
                    self.open[other] = False

    def perform(self, card, kind, at=TAIL, value=0):
        """The value answered and no refusal, or None and the refusal's number."""
        if at >= len(self.cells):
            return None, 21
        if kind in ("load", "store", "begin"):
            return (None, 22) if self.open[card] is not None else (self.outside(card, kind, at, value), None)
        tx = self.open[card]
        if tx is None:
            return None, 23
        if kind in ("commit", "drop") or not tx:
            self.open[card] = None
            if kind == "commit" and tx:
                for written, new in tx[1].items():
                    self.cells[written] = new
            return (0, None) if tx or kind == "drop" else (None, 24)
        return self.inside(card, tx, kind, at, value)

    def outside(self, card, kind, at, value):
        answer = self.cells[at]
        if kind == "begin":
            self.open[card] = ([], {})
        else:
            self.doom(card, at, kind == "store")
        if kind == "store":
            self.cells[at] = value
        return answer

    def inside(self, card, tx, kind, at, value):
        marks, writes = tx
        if kind == "write":
            writes[at] = value
        elif at not in writes and at not in marks:
            marks.append(at)
        if max(len(marks), len(writes)) > 4:
            self.open[card] = None
            return None, 25
        self.doom(card, at, kind == "write")
        return writes.get(at, self.cells[at]), None


class Rules:
    """The table of steps: what each row calls, where it goes by the value, and to which begin a lost one goes back."""

    def __init__(self):
        self.reads_doom = self.markers_doomed = self.reuse_wants_free = self.resends = self.keeps_toggle = True
        self.readers_add, self.enter_spin, self.stored = False, 1, lambda value, amount: min(FULL, value + amount)
        self.rejoin_node = lambda node: node
        self.ready = "R9"
        # What a step answers, where it is not what the card's way says; and the order of the values of a reuse.
        self.answers, self.reused = {}, lambda values: values
        self.call = {
            **{row: lambda me: ("begin",) for row in ("W1", "R1", "R9", "X1", "Y1")},
            **{row: lambda me, *kept: ("commit",) for row in ("W5", "R7", "R12", "X4", "Y7")},
            **{row: lambda me: ("read", TAIL) for row in ("W2", "R2")},
            **{row: lambda me, pred: ("write", TAIL, me) for row in ("W3", "R3")},
            **{row: lambda me, pred: ("write", cell(pred, NEXT), me) for row in ("W4", "R5")},
            **{row: lambda me: ("load", cell(me, SPIN)) for row in ("W6", "R8")},
            **{row: lambda me, nxt: ("store", cell(nxt, SPIN), 0) for row in ("R14", "X5", "Y8")},
            **{row: lambda me, *kept: ("read", cell(me, NEXT)) for row in ("R11", "X2", "Y3")},
            "R4": lambda me, pred: ("write", cell(me, PREV), pred),
            "R6": lambda me, pred: ("read", cell(pred, STATE)),
            "R10": lambda me: ("write", cell(me, STATE), ACTIVE),
            "R13": lambda me, nxt: ("load", cell(nxt, STATE)),
            "X3": lambda me, nxt: ("write", cell(nxt, PREV), 0),
            "Y2": lambda me: ("read", cell(me, PREV)),
            "Y4": lambda me, pred, nxt: ("write", cell(pred, NEXT), nxt),
            "Y5": lambda me, pred, nxt: ("write", cell(nxt, PREV), pred),
            "Y6": lambda me, pred, nxt: ("read", cell(nxt, STATE)),
            "A1": lambda me, amount: ("load", COUNTER),
            "A2": lambda me, amount, value: ("store", COUNTER, self.stored(value, amount)),
        }
        self.goes = {**self.entering(), **self.leaving()}
        self.begin = {row: "W1" for row in ("W2", "W3", "W4", "W5")}
        self.begin.update({row: "R1" for row in ("R2", "R3", "R4", "R5", "R6", "R7")})
        self.begin.update({"R10": "R9", "R11": "R9", "R12": "R9", "X2": "X1", "X3": "X1", "X4": "X1"})
        self.begin.update({row: "Y1" for row in ("Y2", "Y3", "Y4", "Y5", "Y6", "Y7")})

    def entering(self):
        return {
            "W1": lambda v: ("W2",),
            "W2": lambda v: ("W3", v),
            "W3": lambda v, pred: ("W4", pred) if pred else ("W5", pred),
            "W4": lambda v, pred: ("W5", pred),
            "W5": lambda v, pred: ("W6",) if pred else ("inside", "w"),
            "W6": lambda v: ("W6",) if v else ("inside", "w"),
            "R1": lambda v: ("R2",),
            "R2": lambda v: ("R3", v),
            "R3": lambda v, pred: ("R4", pred) if pred else ("R7", 0, 0),
            "R4": lambda v, pred: ("R5", pred),
            "R5": lambda v, pred: ("R6", pred),
            "R6": lambda v, pred: ("R7", pred, v),
            "R7": lambda v, pred, ps: ("R8",) if pred and ps != ACTIVE else (self.ready,),
            "R8": lambda v: ("R8",) if v else (self.ready,),
            "R9": lambda v: ("R10",),
            "R10": lambda v: ("R11",),
            "R11": lambda v: ("R12", v),
            "R12": lambda v, nxt: ("R13", nxt) if nxt else ("inside", "r"),
            "R13": lambda v, nxt: ("R14", nxt) if v == READER else ("inside", "r"),
            "R14": lambda v, nxt: ("inside", "r"),
        }

    def leaving(self):
        return {
            "X1": lambda v: ("X2",),
            "X2": lambda v: ("X3", v),
            "X3": lambda v, nxt: ("X4", nxt),
            "X4": lambda v, nxt: ("X5", nxt) if nxt else ("idle",),
            "X5": lambda v, nxt: ("idle",),
            "Y1": lambda v: ("Y2",),
            "Y2": lambda v: ("Y3", v),
            "Y3": lambda v, pred: ("Y4", pred, v) if pred else ("Y5", 0, v),
            "Y4": lambda v, pred, nxt: ("Y5", pred, nxt),
            "Y5": lambda v, pred, nxt: ("Y6", pred, nxt) if nxt and not pred else ("Y7", pred, nxt, 0),
            "Y6": lambda v, pred, nxt: ("Y7", pred, nxt, v),
            "Y7": lambda v, pred, nxt, ss: ("Y8", nxt) if nxt and not pred and ss == WRITER else ("idle",),
            "Y8": lambda v, nxt: ("idle",),
            "A1": lambda v, amount: ("A2", amount, v),
            "A2": lambda v, amount, value: ("inside", "w"),
        }


# The faults, each a change of the rules.


def successor_state_after_commit(rules):
    rules.call["Y6"] = lambda me, pred, nxt: ("load", cell(nxt, STATE))
    rules.goes["Y5"] = lambda v, pred, nxt: ("Y7", pred, nxt, 0)
    rules.goes["Y7"] = lambda v, pred, nxt, ss: ("Y6", pred, nxt) if nxt and not pred else ("idle",)
    rules.goes["Y6"] = lambda v, pred, nxt: ("Y8", nxt) if v == WRITER else ("idle",)
    del rules.begin["Y6"]


def wake_before_commit(rules):
    rules.ready = "R11"
    rules.call["R11"] = lambda me: ("load", cell(me, NEXT))
    rules.goes["R11"] = lambda v: ("R13", v) if v else ("R9",)
    rules.goes["R13"] = lambda v, nxt: ("R14", nxt) if v == READER else ("R9",)
    rules.goes["R14"] = lambda v, nxt: ("R9",)
    rules.goes["R10"] = lambda v: ("R12", 0)
    del rules.begin["R11"]


def active_mark_outside(rules):
    rules.ready = "R10"
    rules.call["R10"] = lambda me: ("store", cell(me, STATE), ACTIVE)
    rules.goes["R10"] = lambda v: ("R9",)
    rules.goes["R9"] = lambda v: ("R11",)
    del rules.begin["R10"]


FAULTS = {
    "writer-without-link": lambda r: r.goes.update(W3=lambda v, pred: ("W5", pred)),
    "reader-leaves-link": lambda r: r.goes.update(Y3=lambda v, pred: ("Y5", pred, v)),
    "successor-state-after-commit": successor_state_after_commit,
    "successor-state-not-read": lambda r: r.goes.update(Y5=lambda v, pred, nxt: ("Y7", pred, nxt, 0)),
    "wake-before-commit": wake_before_commit,
    "active-mark-outside": active_mark_outside,
    "reuse-taken-node": lambda r: setattr(r, "reuse_wants_free", False),
    "reader-adds": lambda r: setattr(r, "readers_add", True),
    "wakes-any-successor": lambda r: r.goes.update(
        Y7=lambda v, pred, nxt, ss: ("Y8", nxt) if nxt and not pred else ("idle",)
    ),
    "restart-on-other-node": lambda r: setattr(r, "rejoin_node", lambda node: min(node + 1, 7)),
    "lost-mark-joins-again": lambda r: r.begin.update(R12="R1"),
    "no-doom-by-read": lambda r: setattr(r, "reads_doom", False),
    "no-doom-of-markers": lambda r: setattr(r, "markers_doomed", False),
    "enter-spin-zero": lambda r: setattr(r, "enter_spin", 0),
    "second-finished-add": lambda r: r.goes.update(A2=lambda v, amount, value: ("A2", amount, value)),
    "resend-is-served": lambda r: setattr(r, "resends", False),
    "toggle-not-kept": lambda r: setattr(r, "keeps_toggle", False),
    "count-not-stored": lambda r: setattr(r, "stored", lambda value, amount: amount),
    "prev-cleared-after-wake": lambda r: r.call.update(X5=lambda me, nxt: ("store", cell(nxt, PREV), 0)),
    "answers-old-count": lambda r: r.answers.update(A2=lambda before, after: f"added {before[2]}"),
    "wait-told-as-step": lambda r: r.answers.update(W6=lambda before, after: "in" if after != before else "step"),
    "in-told-early": lambda r: r.answers.update(W5=lambda before, after: "in"),
    "lost-told-as-step": lambda r: r.answers.update(lost="step"),
    "reuse-values-swapped": lambda r: setattr(r, "reused", lambda values: (values[1], *values[1:])),
}
ENTERING = ("W1", "W2", "W3", "W4", "W5", "R1", "R2", "R3", "R4", "R5", "R6", "R7")


class Board:
    """The board and, beside it, what the book keeps: the line, the joinings, the finished adds and what was asked."""

    def __init__(self, rules):
        self.rules = rules
        self.memory = Memory(rules)
        self.stages = [("idle",)] * CARDS
        self.nodes = [None] * CARDS
        self.memos = [(1, None, "ok")] * CARDS
        self.line, self.joinings, self.enters, self.finished, self.adds = [], [], [], [], []

    def is_free(self, node):
        return all(stage[0] == "idle" or held != node for stage, held in zip(self.stages, self.nodes))

    def call(self, event):
        """The answer of an event: 'ok' and so on, or 'refused' and a number."""
        letter, card = event[:2]
        if letter in "rwla":
            return self.ask(letter, card, event[2], event[3:])
        if letter == "u":
            return self.reuse(card, event[2], event[3:])
        stage, node = self.stages[card], self.nodes[card]
        if stage[0] in ("idle", "inside"):
            return "refused 5"
        words = self.rules.call[stage[0]](node + 1, *stage[1:])
        return self.step(card, stage, words) if letter == "s" else self.abort(card, stage, words)

    def step(self, card, stage, words):
        value, refusal = self.memory.perform(card, *words)
        if refusal == 24:
            self.go_back(card, stage)
            return self.rules.answers.get("lost", "lost")
        if refusal:
            return f"refused 8 {refusal}"
        place = (card, self.nodes[card], "w" if stage[0] == "W5" else "r")
        if stage[0] in ("W5", "R7"):
            self.line.append(place)
            self.joinings.append(place)
        elif stage[0] in ("X4", "Y7"):
            self.line = [other for other in self.line if other[0] != card]
        elif stage[0] == "A2":
            self.finished.append((card, stage[1]))
        self.stages[card] = self.rules.goes[stage[0]](value, *stage[1:])
        return self.rules.answers.get(stage[0], self.told)(stage, self.stages[card])

    def told(self, before, after):
        """The answer to an accepted step, by the row and where it goes."""
        if before[0] == "A2":
            return f"added {self.rules.stored(before[2], before[1])}"
        if before[0] in ("W6", "R8") and after == before:
            return "wait"
        return {"inside": "in", "idle": "out"}.get(after[0], "step")

    def go_back(self, card, stage):
        if stage[0] in self.rules.begin:
            self.stages[card] = (self.rules.begin[stage[0]],)
        if self.stages[card][0] == "W1":
            self.nodes[card] = self.rules.rejoin_node(self.nodes[card])

    def abort(self, card, stage, words):
        if words[0] not in ("read", "write", "commit"):
            return "refused 5"
        self.memory.perform(card, "drop")
        self.go_back(card, stage)
        return "ok"

    def reuse(self, card, node, values):
        if self.stages[card][0] != "idle":
            return "refused 5"
        if self.rules.reuse_wants_free and not self.is_free(node):
            return "refused 7"
        for field, value in enumerate(self.rules.reused(values), NEXT):
            self.memory.perform(card, "store", cell(node + 1, field), value)
        return "ok"

    def ask(self, letter, card, toggle, words):
        last, request, answer = self.memos[card]
        if last == toggle and self.rules.resends:
            return answer if request == (letter, words) else "refused 4"
        answer = self.serve(letter, card, words)
        self.memos[card] = (toggle if self.rules.keeps_toggle else last, (letter, words), answer)
        if answer == "ok" and last != toggle:
            if letter in "rw":
                self.enters.append((card, words[0], letter))
            if letter == "a":
                self.adds.append((card, words[1]))
        return answer

    def serve(self, letter, card, words):
        stage = self.stages[card]
        if letter in "rw":
            return self.enter(letter, card, words[0])
        if stage[0] != "inside":
            return "refused 5"
        if letter == "l":
            self.stages[card] = ("X1",) if stage[1] == "w" else ("Y1",)
        elif stage[1] == "w" or self.rules.readers_add:
            self.stages[card] = ("A1", words[1])
        else:
            return "refused 5"
        return "ok"

    def enter(self, letter, card, node):
        if self.stages[card][0] != "idle":
            return "refused 5"
        if not self.is_free(node):
            return "refused 7"
        values = [(STATE, READER if letter == "r" else WRITER), (SPIN, self.rules.enter_spin), (NEXT, 0)]
        for field, value in values + ([(PREV, 0)] if letter == "r" else []):
            self.memory.perform(card, "store", cell(node + 1, field), value)
        self.stages[card], self.nodes[card] = ("R1",) if letter == "r" else ("W1",), node
        return "ok"


# The promises.


def held(board, place, field):
    return board.memory.cells[cell(place[1] + 1, field)]


def broken(board):
    """What is broken at this moment, or nothing."""
    return broken_line(board) or broken_inside(board) or broken_wake(board) or broken_counts(board)


def broken_line(board):
    line = board.line
    links = [0] + [place[1] + 1 for place in line] + [0]
    if len({place[0] for place in line}) < len(line) or len({place[1] for place in line}) < len(line):
        return "a card or a node is in line twice"
    for k, place in enumerate(line):
        if held(board, place, NEXT) != links[k + 2]:
            return f"the line: next of node {place[1]} is {held(board, place, NEXT)}, not {links[k + 2]}"
        if place[2] == "r" and held(board, place, PREV) != links[k]:
            return f"the line: prev of node {place[1]} is {held(board, place, PREV)}, not {links[k]}"
    tail = board.memory.cells[TAIL]
    return "" if tail == links[-2] else f"the line: the tail is {tail}, not {links[-2]}"


def broken_inside(board):
    inside = [card for card, stage in enumerate(board.stages) if stage[0] in ("inside", "A1", "A2")]
    for card in inside:
        mode = "r" if board.stages[card] == ("inside", "r") else "w"
        place = (card, board.nodes[card], mode)
        if place not in board.line:
            return f"inside: card {card} is inside and not in line for that"
        ahead = board.line[: board.line.index(place)]
        if mode == "w" and (ahead or len(inside) > 1):
            return f"inside: writer {card} is not first, or not alone"
        if any(held(board, other, STATE) != ACTIVE for other in ahead):
            return f"inside: ahead of reader {card} stands somebody who is no active reader"
    return ""


def broken_wake(board):
    for card, stage in enumerate(board.stages):
        if stage[0] not in ("W6", "R8"):
            continue
        place = (card, board.nodes[card], "w" if stage[0] == "W6" else "r")
        if place not in board.line:
            return f"wakes: card {card} waits and is not in line"
        k = board.line.index(place)
        comes = k == 0 or (place[2] == "r" and held(board, board.line[k - 1], STATE) == ACTIVE)
        if comes and held(board, place, SPIN) and not any(wakes(board, place, d) for d in range(CARDS) if d != card):
            return f"wakes: the turn of card {card} has come, and no other card's next two steps wake it"
    return ""


def wakes(board, place, card):
    """Whether the card's next step, or the one after, sets the spin to 0; the others do nothing."""
    future = copy.deepcopy(board)
    for _ in range(2):
        future.call(("s", card))
        if not held(future, place, SPIN):
            return True
    return False


def broken_counts(board):
    total = min(FULL, sum(amount for _, amount in board.finished))
    if board.memory.cells[COUNTER] != total:
        return f"counts: the counter is {board.memory.cells[COUNTER]}, the finished adds are {total}"
    for card, stage in enumerate(board.stages):
        mode = "w" if stage[0].startswith("W") else "r"
        entering = [(card, board.nodes[card], mode)] if stage[0] in ENTERING else []
        adding = [(card, stage[1])] if stage[0] in ("A1", "A2") else []
        if own(board.enters, card) != own(board.joinings, card) + entering:
            return f"no second entry: the joinings of card {card} are not its accepted enters"
        if own(board.adds, card) != own(board.finished, card) + adding:
            return f"no second count: the finished adds of card {card} are not its accepted adds"
    return ""


def broken_resend(board, event, answer):
    """Whether the request of the last call, sent again, gets another answer or changes something."""
    if event[0] not in "rwla":
        return ""
    future = copy.deepcopy(board)
    told = future.call(event)
    if told != answer:
        return f"resends: sent again, the request is answered {told}, not {answer}"
    changed = future.memory.cells != board.memory.cells or future.stages != board.stages
    return "resends: sent again, the request changes something" if changed else ""


def phase(stage):
    """Where a card is: idle, entering, inside or leaving."""
    return {"i": stage[0], "A": "inside", "W": "entering", "R": "entering"}.get(stage[0][0], "leaving")


def broken_answer(before, event, answer, board):
    """What an accepted step or reuse is answered, and is not so."""
    if event[0] == "u" and answer == "ok":
        cells = board.memory.cells[cell(event[2] + 1, NEXT) : cell(event[2] + 1, SPIN) + 1]
        return "" if cells == list(event[3:]) else f"answers: ok, and the cells of node {event[2]} are {cells}"
    if event[0] != "s" or answer.startswith("refused"):
        return ""
    card = event[1]
    stage, way = before.stages[card], (phase(before.stages[card]), phase(board.stages[card]))
    waits = stage[0] in ("W6", "R8") and before.memory.cells[cell(before.nodes[card] + 1, SPIN)] != 0
    so = {
        "in": way == ("entering", "inside"),
        "out": way == ("leaving", "idle"),
        "wait": waits,
        "lost": before.memory.open[card] is False,
        f"added {board.memory.cells[COUNTER]}": stage[0] == "A2",
    }
    missed = [said for said, true in so.items() if true and said != answer]
    if missed:
        return f"answers: card {card} is answered {answer}, not {missed[0]}"
    return "" if answer == "step" or so.get(answer) else f"answers: card {card} is answered {answer}, which is not so"


def own(records, card):
    return [record for record in records if record[0] == card]


# Runs.


def rules_with(fault):
    rules = Rules()
    if fault:
        FAULTS[fault](rules)
    return rules


def play(fault, run):
    """The number of the call after which something is broken and what it is, or nothing."""
    board = Board(rules_with(fault))
    for number, event in enumerate(run):
        before, free = copy.deepcopy(board), [board.is_free(node) for node in range(NODES)]
        answer = board.call(event)
        if answer.startswith("refused 8"):
            return number, answer
        for node in range(NODES):
            cells = slice(1 + 4 * node, 5 + 4 * node)
            changed = before.memory.cells[cells] != board.memory.cells[cells]
            if event[0] != "u" and changed and free[node] and board.is_free(node):
                return number, f"free nodes: a cell of the free node {node} changed"
        what = broken_resend(board, event, answer) or broken(board) or broken_answer(before, event, answer, board)
        if what:
            return number, what
    return None


def draw(dice, fault, length=120):
    """A run that goes deep: mostly steps, and what a card may ask for where it stands."""
    board, run, readers = Board(rules_with(fault)), [], dice.choice((0.2, 0.5, 0.8))
    for number in range(length):
        if number % 10 == 0:
            weights = [dice.random() ** 3 + 0.02 for _ in range(CARDS)]
        card = dice.choices(range(CARDS), weights)[0]
        event = drawn_event(dice, board, card, readers)
        run.append(event)
        board.call(event)
    return run


def drawn_event(dice, board, card, readers):
    stage, toggle = board.stages[card][0], 1 - board.memos[card][0]
    free = [node for node in range(NODES) if board.is_free(node)]
    if stage == "idle" and (dice.random() < 0.15 or not free):
        return ("u", card, dice.randrange(NODES), *(dice.choice((0, 1, 2, 3, FULL)) for _ in range(4)))
    if stage == "idle":
        return "r" if dice.random() < readers else "w", card, toggle, dice.choice(free)
    if stage == "inside" and dice.random() < 0.8:
        return ("a", card, toggle, 0, dice.choice((1, 7))) if dice.random() < 0.4 else ("l", card, toggle)
    if dice.random() < 0.03:
        return "a", card, dice.choice((0, 1)), 0, 1
    return dice.choices("sx", (30, 1))[0], card


def cut_down(fault, run):
    """Leaves out events as long as something is still broken at the end."""
    run = run[: play(fault, run)[0] + 1]
    size = len(run)
    while size:
        k, shorter = 0, False
        while k < len(run):
            fewer = run[:k] + run[k + size :]
            end = play(fault, fewer)
            if end:
                run, shorter = fewer[: end[0] + 1], True
            else:
                k += size
        size = size if shorter and size == 1 else size // 2
    return run


def find(fault, tries, seed, enough=8):
    """The shortest of the first runs found."""
    dice, found = random.Random(seed), []
    for _ in range(tries):
        run = draw(dice, fault)
        if play(fault, run):
            found.append(cut_down(fault, run))
        if len(found) == enough:
            break
    return min(found, key=len, default=None)


def written(run):
    """The events, with equal ones that follow each other counted."""
    parts = []
    for event in run:
        text = " ".join(map(str, event))
        if parts and parts[-1][0] == text:
            parts[-1][1] += 1
        else:
            parts.append([text, 1])
    return ", ".join(text if count == 1 else f"{text} ×{count}" for text, count in parts)


def main():
    parser = argparse.ArgumentParser(description=__doc__, formatter_class=argparse.RawDescriptionHelpFormatter)
    parser.add_argument("faults", nargs="*", metavar="FAULT")
    parser.add_argument("--tries", type=int, default=3000, help="most runs drawn for a fault")
    parser.add_argument("--seed", type=int, default=1)
    options = parser.parse_args()
    for fault in options.faults or [None, *FAULTS]:
        run = find(fault, options.tries, options.seed)
        found = f"{play(fault, run)[1]}\n    {written(run)}" if run else "no run found"
        print(f"{fault or 'without a fault'}: {found}", flush=True)


if __name__ == "__main__":
    main()
