#!/usr/bin/env python3
"""An outside check of the written rules of the dictionary.

Random lists of calls run through the book and the tree of rule_models.py, which must agree in everything. Then theorems
by computation say that the definitions in crates/rules/specs give just the same. The checker proves them in a scratch
copy of the crates, and must refuse each one in which a literal is changed.
"""
import argparse
import collections
import pathlib
import random
import re
import shutil
import subprocess
import sys
import tempfile
import time

sys.dont_write_bytecode = True
from rule_models import STEP_SYMBOL, Book, Tree, perform, refusal_of_tag

# on how many lists the book and the tree are compared
LISTS = 25000


# ------------------------------------------------------------ random lists

LENGTHS = [1, 2, 3, 5, 8, 30, 31, 32, 33, 34, 45, 62, 63, 64, 65, 66, 95, 96, 97, 128, 160, 198, 199, 200]


def random_tag(rng, known, letters, lengths):
    """A tag that often grows out of one already met, near the places where steps begin."""
    kind, longest = rng.random(), lengths[-1]
    if not known or kind < 0.1:
        length = rng.choice(lengths)
        return tuple(rng.choices(letters, k=length)) if rng.random() < 0.5 else (rng.choice(letters),) * length
    base = rng.choice(known)
    cuts = [n for n in lengths if n <= len(base)] or [len(base)]
    if kind < 0.15:
        return base
    if kind < 0.3:
        return base[:rng.choice(cuts)]
    if kind < 0.4:
        return (base + (rng.choice(letters),) * rng.choice([1, 2, 31, 32, 33, 64]))[:longest]
    cut = rng.choice([*cuts, rng.choice([0, 1, 2, 5])]) + rng.choice([-1, 0, 0, 1])
    return (base[:max(0, cut)] + tuple(rng.choices(letters, k=rng.choice([1, 1, 2, 3, 20, 33]))))[:longest]


def bad_tag(rng, letters):
    long = tuple(rng.choices(letters, k=rng.choice([201, 201, 202])))
    short = rng.choices(letters, k=rng.choice([1, 2, 33, 200]))
    short[rng.randrange(len(short))] = rng.choice([0, 255])
    return rng.choice([(), (), long, long[:-1] + (0,), (255,) + long[1:], tuple(short), tuple(short)])


def random_buffer(rng, book, ticket):
    """Of a length one short, exact, one long, or longer."""
    sizes = [len(row.tag) + n for row in book.rows if row.ticket == ticket for n in (-1, 0, 0, 1, 3)]
    return tuple(rng.randrange(256) for _ in range(rng.choice(sizes or [0, 1, 5])))


def random_list(rng, count, longest):
    """(room, rooms to come, byte room) and calls. A roomy book follows the calls while they are chosen; the rooms are
    chosen last, many of them just what some of the calls fill, or one off."""
    letters = rng.choice([(97,), (97, 98), (97, 98), (1, 254), (97, 98, 99, 1, 254)])
    lengths = [n for n in rng.choice([LENGTHS, LENGTHS[5:]]) if n <= longest]
    book, known, calls, filled = Book(32768, (), 10 ** 6), [], [], [(1, 0)]
    for _ in range(count):
        name = rng.choice(["enter"] * 12 + ["find"] * 4 + ["spell"] * 4 + ["strike"] * 2 + ["change"] * 2 + ["double"])
        if name == "double":
            args = ()
        elif name == "spell":
            tickets = [row.ticket for row in book.rows]
            ticket = rng.choice(tickets) if tickets and rng.random() < 0.6 else rng.randrange(book.nodes() + 1)
            args = (ticket, random_buffer(rng, book, ticket))
        else:
            ends = letters + (rng.choice([1, 2, 99, 254]),)
            tag = random_tag(rng, known, rng.choice([letters, ends]), lengths)
            if name != "enter" and book.rows and rng.random() < 0.6:
                struck = [row for row in book.rows if row.struck and name == "find"]
                tag = rng.choice(struck or book.rows).tag
            known.append(tag)
            if rng.random() < 0.06:
                tag = bad_tag(rng, letters)
            args = (tag, rng.randrange(1000)) if name in ("enter", "change") else (tag,)
        calls.append((name, args))
        perform(book, calls[-1])
        filled.append((book.nodes(), book.label_bytes()))
    room = max(1, rng.choice(filled)[0] + rng.choice([-1, 0, 0, 1])) if rng.random() < 0.4 else rng.choice([14, 16, 32768])
    larger = [n for n in (2, 3, 4, 5, 6, 8, 28, 57, 32768) if n > room]
    to_come = tuple(sorted(rng.sample(larger, min(len(larger), rng.choice([0, 1, 2])))))
    byte_room = max(0, rng.choice(filled)[1] + rng.choice([-1, 0, 0, 1])) if rng.random() < 0.3 else 100000
    return (room, to_come, byte_room), calls


# --------------------------------------------------------- book against tree

def assert_same(book, tree):
    """Rows on one side, nodes on the other, tell of the same tags."""
    assert book.room == tree.rooms[tree.current] and book.label_bytes() == tree.label_bytes()
    assert book.nodes() == max(1, len(tree.nodes))
    tickets = [row.ticket for row in book.rows]
    for node in range(len(tree.nodes)):
        assert tickets.count(node) == (0 if tree.climb(node) is None else 1)
    for row in book.rows:
        assert tree.look(row.tag)[:2] == (row.ticket, row.moves)
        assert tree.nodes[row.ticket][2] == row.spelled[row.start:]
        assert tree.climb(row.ticket) == row.spelled
        assert tree.shelf.get(row.ticket) == (None if row.struck else row.value)


def run_both(rooms, calls):
    """The replies of the book, checked against those of the tree, and both as they stand at the end."""
    book, tree, replies = Book(*rooms), Tree(*rooms), []
    for call in calls:
        replies.append(perform(book, call))
        assert replies[-1] == perform(tree, call), (rooms, calls, call)
    assert_same(book, tree)
    return replies, book, tree


def count_run(seen, replies, book, tree):
    seen["lists"] += 1
    seen["calls"] += len(replies)
    seen["rows"] += len(book.rows)
    seen["struck rows"] += sum(row.struck for row in book.rows)
    seen["step nodes"] += sum(symbol == STEP_SYMBOL for _, symbol, _ in tree.nodes)
    for answer, _ in replies:
        seen["refused %2d" % answer[1] if answer[0] == "refused" else "answered " + answer[0]] += 1


def compare_in_python(rng, lists):
    seen = collections.Counter()
    for _ in range(lists):
        count_run(seen, *run_both(*random_list(rng, rng.choice([6, 10, 20, 40]), 200)))
    assert all(seen["refused %2d" % n] for n in range(1, 11)), seen
    return seen


# ------------------------------------------------- book against the written definitions

TREE = "child_from down look_from grow enter_tag enter_tags tree_of climb_from bytes_in"
BOOK = "most earliest steps_of nodes label_bytes later_row next_row absent_moves row_of arrive arrive_all rows_of"
CALLS = "takes enter_old enter_new enter on_live_row find_in find tag_with spell spell_buffer double"
UNFOLDING = f"unfolding spelled shared same_word {TREE} {BOOK} {CALLS}"
REFUSALS = "EmptyTag LongTag BadByte RowHolds NoLiveRow NoNodeRoom NoByteRoom NoSuchTicket ShortBuffer NoNextRoom".split()
SAYS = {"enter": "Entered", "change": "Changed", "strike": "Struck", "spell": "Spelled", "double": "Doubled",
        "found": "holds", "absent": "absent"}
HEADER = f"""use Rattle.std.specs.Prelude.{{◌≡◌, ℕ, List, [], ◌∷◌, map, Some, None, Ok, Err, refl}}
use Rattle.tags.specs.declared.refusal.MapFault.TheVariants.{{LastRoom}}
use Rattle.tags.specs.declared.refusal.Refusal.TheVariants.{{{', '.join(REFUSALS)}}}
use Rattle.tags.specs.Refusals.{{refusal_number, map_fault_number}}
use Rattle.tags.specs.Tags.{{spelled}}
use Rattle.rules.specs.declared.step.Step.TheVariants.{{By32}}
use Rattle.rules.specs.declared.answers.Answer.TheVariants.{{Entered, Changed, Struck, Looked, Spelled, Doubled}}
use Rattle.rules.specs.Words.{{shared, same_word}}
use Rattle.rules.specs.Tree.{{Tree, bare, node_count, Look, there, lacks, look_for, moves_of, climb, {TREE.replace(' ', ', ')}}}
use Rattle.rules.specs.Book.{{Row, Arrival, {BOOK.replace(' ', ', ')}}}
use Rattle.rules.specs.Calls.{{Book, holds, absent, {CALLS.replace(' ', ', ')}}}
use Rattle.rules.specs.Runs.{{Request, Enter, Change, Find, Strike, Spell, Double, Reply, replies, book_after}}
"""

# the left side, given by the definitions, is the literal on the right, both of the type `kind`
Theorem = collections.namedtuple("Theorem", "name kind left right")


def theorem_text(t):
    return f"{t.name} : ◌≡◌ {{A = {t.kind}}} ({t.left}) ({t.right})\n{UNFOLDING}\n{t.name} = refl\n"


def listed(items):
    return "(" + "".join(f"{item} ∷ " for item in items) + "[])"


def record(**fields):
    return "record { " + "; ".join(f"{name} = {value}" for name, value in fields.items()) + " }"


def option(value):
    return "None" if value is None else f"(Some {value})"


def request_text(call):
    name, args = call
    return "(" + " ".join([name.capitalize()] + [listed(a) if isinstance(a, tuple) else str(a) for a in args]) + ")"


def reply_text(call, reply):
    (kind, *parts), buffer = reply
    numbers = " ".join(map(str, parts))
    if kind == "refused":
        answer = "Err " + ("(NoNextRoom LastRoom)" if parts == [10] else REFUSALS[parts[0] - 1])
    else:
        says = f"Looked ({SAYS[kind]} {numbers})" if call[0] == "find" else f"{SAYS[call[0]]} {numbers}"
        answer = f"Ok ({says})"
    return record(answer=answer, buffer=listed(buffer))


def value_of(row):
    return option(None if row.struck else row.value)


def rows_text(book):
    return listed(record(tag=listed(row.tag), value=value_of(row), start=row.start, owner=option(row.owner),
                         offset=row.offset, ticket=row.ticket, needs=row.needed, moves=row.moves) for row in book.rows)


def book_text(book):
    return record(step="By32", rows=rows_text(book), room=book.room, coming=listed(book.to_come), byte_room=book.byte_room)


def tree_text(tree):
    return record(edges=listed(record(parent=parent, symbol=symbol) for parent, symbol, _ in tree.nodes[1:]),
                  labels=listed(listed(label) for _, _, label in tree.nodes))


def look_text(tree, tag):
    node, moves, at, path, rest = tree.look(tag)
    return f"there {node} {moves}" if node is not None else f"lacks {at} {len(path) - 1} {path[-1]} {listed(rest)} {moves}"


def theorems(n, rooms, calls, replies, book, tree):
    """The shorthands of list n, and what the definitions must give for it."""
    asked = sorted({args[0] for name, args in calls if name not in ("spell", "double") and not refusal_of_tag(args[0])})
    tags = listed(map(listed, asked))
    short = (f"abbrev calls{n} : List (Request ℕ)\ncalls{n} = {listed(map(request_text, calls))}\n\n"
             f"abbrev start{n} : Book ℕ\nstart{n} = {book_text(Book(*rooms))}\n\n"
             f"abbrev tree{n} : Tree\ntree{n} = {tree_text(tree)}\n")
    run = [Theorem(f"replies{n}", "List (Reply ℕ)", f"replies start{n} calls{n}", listed(map(reply_text, calls, replies))),
           Theorem(f"after{n}", "Book ℕ", f"book_after start{n} calls{n}", book_text(book))]
    if not book.rows:
        still = f"map (λ (tag : List ℕ). moves_of (look_for By32 bare tag)) {tags}"
        return short, run + [Theorem(f"still{n}", "List ℕ", still, listed(tree.look(tag)[1] for tag in asked))]
    # some of the tags arrive a second time, which changes nothing
    twice = book.rows + book.rows[::-2]
    arrivals = listed(record(tag=listed(row.tag), value=value_of(row)) for row in twice)
    totals = (f"(nodes {{V = ℕ}} {rows_text(book)} ∷ label_bytes {{V = ℕ}} {rows_text(book)}"
              f" ∷ node_count tree{n}.edges ∷ bytes_in tree{n}.labels ∷ [])")
    return short, run + [
        Theorem(f"rows{n}", "List (Row ℕ)", f"rows_of By32 {arrivals}", rows_text(book)),
        Theorem(f"totals{n}", "List ℕ", totals, listed([book.nodes(), book.label_bytes()] * 2)),
        Theorem(f"grown{n}", "Tree", f"tree_of By32 {listed(listed(row.tag) for row in twice)}", tree_text(tree)),
        Theorem(f"looks{n}", "List Look", f"map (look_for By32 tree{n}) {tags}", listed(look_text(tree, tag) for tag in asked)),
        Theorem(f"climbs{n}", "List (List ℕ)", f"map (climb By32 tree{n}) {listed(row.ticket for row in book.rows)}",
                listed(listed(row.spelled) for row in book.rows))]


def spoil(rng, t):
    """The theorem with one number of its literal changed, or None where it has none."""
    places = [m.span() for m in re.finditer(r"\b\d+\b", t.right)]
    if not places:
        return None
    a, b = rng.choice(places)
    return t._replace(name=t.name + "x", right=t.right[:a] + str(int(t.right[a:b]) + 1) + t.right[b:])


class Scratch:
    """A copy of the crates in a folder of its own, whose proofs get modules added."""

    def __init__(self, folder):
        here = pathlib.Path(__file__).resolve().parent.parent
        self.folder, self.proofs = pathlib.Path(folder), pathlib.Path(folder) / "crates/rules/proofs"
        for crate in ("tags", "rules"):
            shutil.copytree(here / "crates" / crate, self.folder / "crates" / crate, ignore=shutil.ignore_patterns("out"))
        (self.folder / "crates.txt").write_text("tags:\nrules: tags\n")

    def add(self, module, texts):
        (self.proofs / f"{module}.antt").write_text(HEADER + "\n" + "\n".join(texts))
        with open(self.proofs / "Lib.antt", "a") as lib:
            lib.write(f"mod {module}\n")

    def check(self):
        """Whether all is proved, and the checker's complaints: the theorem's name and the text."""
        done = subprocess.run(["rt", "check"], cwd=self.folder / "crates/rules", text=True,
                              stdout=subprocess.PIPE, stderr=subprocess.STDOUT)
        blamed = re.findall(r"^\S+: error: `(\w+)`(.*(?:\n  .*)*)", done.stdout, re.M)
        return done.returncode == 0 and "logic=proved" in done.stdout, blamed or [("the checker: ", done.stdout[-1500:])]


def compare_with_definitions(rng, runs):
    seen, spoiled, table = collections.Counter(), [], " ∷ ".join(REFUSALS[:9])
    left = f"map_fault_number LastRoom ∷ map refusal_number ({table} ∷ NoNextRoom LastRoom ∷ [])"
    numbers = Theorem("numbers", "List ℕ", left, listed([5, *range(1, 11)]))
    with tempfile.TemporaryDirectory() as folder:
        scratch, texts = Scratch(folder), [theorem_text(numbers)]
        for n in range(runs):
            rooms, calls = random_list(rng, rng.choice([6, 8, 8, 16]), rng.choice([45] * 4 + [66] * 4 + [200] * 2))
            replies, book, tree = run_both(rooms, calls)
            count_run(seen, replies, book, tree)
            short, stated = theorems(n, rooms, calls, replies, book, tree)
            texts += [short, *map(theorem_text, stated)]
            seen["theorems"] += len(stated)
            if n < 20:
                spoiled += [(short, [w for t in stated if (w := spoil(rng, t))])]
            if n % 200 == 199 or n == runs - 1:
                scratch.add(f"Animated{n}", texts)
                texts = []
        proved, blamed = scratch.check()
        if not proved:
            sys.exit("FIRST DIFFERENCE: {}{}".format(*blamed[0])[:4000])
        scratch.add("Spoiled", [text for short, wrong in spoiled for text in [short, *map(theorem_text, wrong)]])
        proved, blamed = scratch.check()
        wrong = {t.name for _, stated in spoiled for t in stated}
        assert not proved and {name for name, _ in blamed} == wrong, ("self-test: not refused", wrong - {b[0] for b in blamed})
        seen["changed literals refused"] = len(wrong)
    return seen


def main():
    parser = argparse.ArgumentParser(description=__doc__.splitlines()[0])
    parser.add_argument("--runs", type=int, default=1000, help="runs for the checker")
    parser.add_argument("--seed", type=int, default=1)
    parser.add_argument("--python-only", action="store_true", help="compare book and tree only, without the checker")
    args = parser.parse_args()
    parts = [("book and tree agree", lambda rng: compare_in_python(rng, LISTS))]
    if not args.python_only:
        parts.append(("the definitions agree with both", lambda rng: compare_with_definitions(rng, args.runs)))
    for title, part in parts:
        began, seen = time.time(), part(random.Random(args.seed))
        print(f"{title} ({time.time() - began:.0f} s)")
        for name in sorted(seen):
            print(f"  {name}: {seen[name]}", flush=True)


if __name__ == "__main__":
    main()
