"""The tables that the pages have made for them, of the tree and of the stored runs in bench/results."""

import functools
import itertools
import math
import re
import statistics

import stored
import tree
from stored import rows_of
from tree import TOP, text_of

SIZES, TOUCHES = ("1000", "10000", "65536"), ("extend", "reset", "cancel")
PIECE_WAYS = ("whole", "pieces-16", "pieces-64", "pieces-256")
# The rows and the peers of the tables, by the table.
PLAN, LIVES = stored.PLAN["tables"], stored.WHOLE_ROWS
# The cases of the bench, by their keys.
cases = functools.cache(stored.read)


def grid(heads, rows, left=1):
    """A table, of whose columns so many are words and the others numbers."""
    told = lambda it: f"{int(it):,}" if str(it).isdigit() else str(it)
    lines = ["| " + " | ".join(map(told, it)) + " |" for it in (heads, *rows)]
    return "\n".join([lines[0], "|---" * left + "|--:" * (len(heads) - left) + "|", *lines[1:]])


@functools.cache
def run():
    """The median of each cell of the bench: by peer, row, entries and callers."""
    return {(peer, case.row, str(case.entries), str(case.threads)): case.median(peer) for case in cases().values() for peer in case.samples}


def ns(name, peer, entries="10000", threads="1"):
    return run()[peer, name, entries, threads]


def ns_text(value):
    return f"{value:,.0f}" if value >= 10 else f"{value:.1f}"


def us_text(value):
    """Nanoseconds as microseconds."""
    return f"{value / 1000:,.0f}" if value >= 10000 else f"{value / 1000:.1f}" if value >= 95 else f"{value / 1000:.2f}"


def speed():
    """The bench's table: medians at 10,000 entries."""
    peers = PLAN["speed_peers"]
    rows = ([words, *(ns_text(ns(name, it)) for it in peers)] for name, words in PLAN["speed"].items())
    return grid(["", *peers.values()], rows)


def named_speed(which):
    """Medians of calls by name, of the peers of a table: of one shard in one thread, and of four shards in four."""
    peers = PLAN[which]
    heads = [*peers.values()] * 2
    heads[0], heads[3] = f"1 shard, 1 thread: {heads[0]}", f"4 shards, 4 threads: {heads[3]}"
    names = {"insert-burst": "insert, 64 under one lock", "poll-burst": "poll, 64 under one lock"}
    cells = list(itertools.product(("1", "4"), peers))
    rows = ([names.get(it, it), *(ns_text(ns(f"{it}/{many}", peer, threads=many)) for many, peer in cells)]
            for it in ("insert", "extend", "reset", "remove", "poll", *names))
    return grid(["", *heads], rows)


@functools.cache
def goals():
    """The median of each side of a goal, by its entries and threads."""
    return {(goal, side, entries, threads): float(median) for goal, side, entries, threads, median, _ in rows_of("goals")}


def product_goals():
    """What the crate's `DelayQueue` is to reach, and the ratios that the stored run has, by the number of threads: of two sizes each. What
    is missed is in bold."""
    taken, sizes, many = goals(), SIZES[1:], ("1", "2", "4")

    def ratios(it, ours, beside, threads):
        cells = [(taken.get((it["goal"], ours, size, threads)), taken.get((it["goal"], beside, size, threads))) for size in sizes]
        return " / ".join(missed(mine / other, it["most"], f"{mine / other:.2f}") for mine, other in cells if mine and other)

    def told(it, ours, beside):
        side = PLAN["goal_sides"][ours]
        return f"{it['words']}{f', {side}' if side and ours != 'unpark' else ''}, beside {PLAN['goal_sides'][beside]}"

    pairs = [(it, *pair, [ratios(it, *pair, threads) for threads in many]) for it in PLAN["goals"] for pair in it["pairs"]]
    rows = [[told(it, ours, beside), f"{it['most']} times", *cells] for it, ours, beside, cells in pairs if any(cells)]
    memory = {side: value for (goal, side, *_), value in taken.items() if goal == "memory"}
    rows.append(["a million live entries, beside the value", "64 bytes", f"{memory['entry']:.0f} bytes", "", ""])
    rows.append(["the same as the last one came out", "10%", missed(memory["stays"], 10, f"{memory['stays']:.1f}%"), "", ""])
    return grid(["", "at most", *(f"{it} thread{'s' if it != '1' else ''}" for it in many)], rows)


def missed(value, most, text):
    """A number's text, in bold where it is more than it is to be."""
    return f"**{text}**" if value > most else text


def life_beside_heap(entries):
    """An insert and its receive beside that of the best heap, behind std's lock, and with pauses before a thread sleeps."""
    return [goals()["life", "queue-at", entries, "1"] / goals()["life", it, entries, "1"] for it in ("heap-best-locked", "heap-best-paused")]


def rows_of_best_heap(ours, which):
    """In how many rows the best heap in a `Mutex` is ahead."""
    return [sum(run()[it] < run()[ours, *it[1:]] for it in rows_beside("heap-best-locked", ours, which))]


def beside_one_receiver():
    one, *several = [ns("poll-burst/4", "queue-at", threads=it) for it in ("1", "2", "4")]
    return [it / one for it in several]


def pieces_beside_whole():
    found = {tuple(it[:3]): float(it[-1]) for it in rows_of("fair")}
    return [found["pieces", "fair-name-absent", size] / found["whole", "fair-name-absent", size] for size in SIZES[1:]]


def longest_calls():
    """The longest calls of `DelayQueue`, whatever they are, in microseconds."""
    spreads = [cases()[f"longest-{it}", int(SIZES[-1]), 1].spreads for it in TOUCHES]
    return [max(its[-1] for (peer, _), its in spread.items() if peer == "queue") / 1000 for spread in spreads]


def misses_of_life():
    return [float(number) for row, what, number in rows_of("instructions") if (row, what) == ("life", "misses queue-at")]


def instructions_of_life():
    found = {(peer, entries): float(count) for peer, entries, count in rows_of("calls")[1:]}
    return [found["life/1", entries] for entries in ("1000", "100000")]


def reach():
    """What `DelayQueue` is to reach besides: what is missed is in bold, and why it is. A row has no numbers until a run has them."""
    def cells(it):
        name, *arguments = it["told"].split()
        try:
            values = globals()[name](*arguments)
        except KeyError:
            values = []
        text = " / ".join(missed(value, it["most"], ns_text(value) if it["most"] >= 10 else f"{value:.2f}") for value in values)
        return [it["words"], it["why"] if "**" in text else "", f"{it['most']:,}", text]

    return grid(["", "Why it is missed", "at most", "here"], map(cells, PLAN["reach"]), 2)


def shape(name, entries, threads):
    """A row's entries, shards and threads, in words."""
    shards, many = name.partition("/")[2] or "1", f"{int(entries):,} entries"
    parts = [f"{shards} shards of {many}" if shards != "1" else many, f"{threads} threads" if threads != "1" else ""]
    return ", ".join([*filter(None, parts), *(["one each"] if name.startswith("own-") else [])])


def headline():
    """The worst eight kinds of rows of what a reader links: each where ours takes most beside the fastest of the others, worst first."""
    found = {}
    for product, (words, peers) in PLAN["front"].items():
        for peer, name, entries, threads in run():
            kind = name.removeprefix("own-").partition("/")[0]
            is_longest = name.startswith("longest-")
            taken = (lambda it: longest_of(name, it, entries)) if is_longest else lambda it: run()[it, name, entries, threads]
            # A row of the longest call has one thread, and peers without a lock.
            its = PLAN["single" if is_longest else peers]
            others = [it for it in its if (it, name, entries, threads) in run()]
            if peer != product or kind not in PLAN["front_rows"] or not others:
                continue
            best = min(others, key=taken)
            text = (lambda it: f"{us_text(it)} µs") if is_longest else ns_text
            row = [words, f"{PLAN['front_rows'][kind]}; {shape(name, entries, threads)}", text(taken(product)),
                   f"{text(taken(best))}, {its[best]}", text(taken(others[-1]))]
            key = words, "longest" if is_longest else kind
            found[key] = max(found.get(key, (0,)), (taken(product) / taken(best), row))
    worst = sorted(found.values(), reverse=True)[:8]
    return grid(["", "Row", "ours", "the fastest other", "tokio-util's"], (row for _, row in worst), 2)


def front():
    """The rows that the front page has beside the others: a column for each peer."""
    peers, its = PLAN["front_peers"], stored.PLAN["cases"]["front"].items()
    found = [(row, str(entries), str(threads)) for row, many in its for entries, threads in many if (row, entries, threads) in cases()]
    rows = ([f"{PLAN['front_rows'][it[0].partition('/')[0]]}; {shape(*it)}", *(ns_text(run()[peer, *it]) if (peer, *it) in run() else "" for peer in peers)]
            for it in found)
    return grid(["", *peers.values()], rows)


def receivers():
    """An entry of what one thread put in, by the number of threads that receive: nanoseconds, and how many times those of one."""
    many = ("1", "2", "4")
    taken = {words: [ns("poll-burst/4", peer, threads=it) for it in many] for peer, words in PLAN["receiver_peers"].items()}
    rows = ([words, *(f"{it:,.0f}, {it / its[0]:.1f} times" for it in its)] for words, its in taken.items())
    return grid(["", *(f"{it} thread{'s' if it != '1' else ''}" for it in many)], rows)


def beside_delay_queue():
    """How many times as fast as tokio-util's queue each product is: of three sizes the least and the most, rounded away."""
    calls = PLAN["product_calls"]

    def span(name, ours):
        ratios = [ns(name, "delay-queue", it) / ns(name, ours, it) for it in SIZES]
        return f"{math.floor(min(ratios) * 10) / 10:.1f} to {math.ceil(max(ratios) * 10) / 10:.1f}"

    rows = ([words, *(span(it, ours) for it in calls)] for words, ours in PLAN["products"].items())
    return grid(["", *calls.values()], rows)


def standing():
    """Where each peer stands in the rows that charge it for all that its calls leave behind."""
    rows = []
    for peer, words in PLAN["standing_peers"].items():
        its = list(itertools.product([peer], ("cancel", "poll", *LIVES), SIZES, ["1"]))
        ratios = {cell: run()[cell] / run()[("ours-owned", *cell[1:])] for cell in its}
        ends = (f"`{at[1]}` at {int(at[2]):,}: {ratios[at]:.2f}x" for at in (min(ratios, key=ratios.get), max(ratios, key=ratios.get)))
        rows.append([words, *(sum(run()[it] < run()[ours, *it[1:]] for it in its) for ours in ("ours-owned", "ours")), *ends])
    return grid(["Peer", "Ahead of one owner's", "Ahead of shared words", "Its best row", "Its worst row"], rows)


def kind_of(cell):
    """The kind of a row of shards."""
    return cell[1].removeprefix("own-").partition("/")[0]


def rows_beside(peer, ours, which):
    """A peer's cells of rows of shards, of calls or of whole lives, that ours has too."""
    kinds = {"calls": stored.SHARD_ROWS, "lives": LIVES}[which]
    return [it for it in run() if it[0] == peer and (ours, *it[1:]) in run() and kind_of(it) in kinds]


def ahead(ours, which):
    """In how many rows of shards each peer in a `Mutex` is ahead, of calls or of whole lives: of all, and of each kind."""
    kinds = {"calls": stored.SHARD_ROWS, "lives": LIVES}[which]
    counted = lambda cells: [len(cells), *([*map(kind_of, cells)].count(kind) for kind in kinds)]
    its = {words: rows_beside(peer, ours, which) for peer, words in PLAN["locked"].items()}
    its = {words: cells for words, cells in its.items() if cells}
    counts = {tuple(counted(cells)) for cells in its.values()}
    if len(counts) != 1:
        raise LookupError("the peers have not as many rows as one another")
    heads = (f"{kind}: of {many}" for kind, many in zip(["all", *(f"`{it}`" for it in kinds)], counts.pop()))
    rows = ([peer, *counted([it for it in cells if run()[it] < run()[ours, *it[1:]]])] for peer, cells in its.items())
    return grid(["In a `Mutex`", *heads], rows)


def longest_of(name, peer, entries):
    """The nanoseconds of a peer's longest poll in a row of the longest call."""
    return cases()[name, int(entries), 1].spreads[peer, "poll"][-1]


def touched(peers, cell):
    """A table of the longest call, after sessions were touched in some way."""
    rows = ([f"{call}s", size, *(cell(call, it, size) for it in peers)] for call in TOUCHES for size in SIZES)
    return grid(["Touched by", "Entries", *peers.values()], rows)


def longest():
    """The longest poll of each kind, in microseconds."""
    return touched(PLAN["longest_peers"], lambda call, peer, size: us_text(longest_of(f"longest-{call}", peer, size)))


def pieces():
    """Polls whole and in pieces: the longest call."""
    found = {tuple(it[:3]): it for it in rows_of("pieces") if it[1].startswith("pieces-") and it[3] == "poll"}
    return touched({it: it for it in PIECE_WAYS}, lambda call, way, size: ns_text(float(found[way, f"pieces-{call}", size][9])))


def beside():
    """A poll and another thread's inserts: the longest of each, medians over the rounds."""
    def median(way, size, at):
        return ns_text(statistics.median(float(it[at]) for it in rows_of("pieces") if it[:3] == [way, "beside", size]))

    rows = ([size, *(f"{median(way, size, 3)} / {median(way, size, 5)}" for way in PIECE_WAYS)] for size in SIZES)
    return grid(["Entries", *PIECE_WAYS], rows, 0)


def fair():
    """What another thread's calls by name wait beside a poll, and what that takes, in microseconds."""
    ways, queues, rows = PLAN["fair_ways"], PLAN["fair_queues"], []
    found = {tuple(it[:3]): it[4:] for it in rows_of("fair")}
    cells = [*itertools.product(("calm", "rushed"), (2, 3, 4)), ("absent", 4)]
    for size, queue, way in itertools.product(SIZES[1:], queues, ways):
        us = (float(found[way, f"fair-{queue}-{pace}", size][at]) / 1000 for pace, at in cells)
        rows.append([size, queues[queue], ways[way], *(f"{it:,.1f}" for it in us)])
    calls = ["99.9%", "all", "its poll"]
    return grid(["Entries", "Queue", "Polled by", f"calm: {calls[0]}", *calls[1:], f"rushed: {calls[0]}", *calls[1:],
                 "beside nobody"], rows, 3)


def instructions():
    """Instructions and cache misses an operation, of ours, of the heap and of the crate."""
    its = {(row, what): number for row, what, number in rows_of("instructions")}
    ours, crate, words = ("ours-owned", "ours", "heap-note"), ("rust", "rust-checked"), ("rust-alone", "rust-open")

    def told(name, what, peers):
        text = " / ".join(its.get((name, f"{what} {peer}"), "") for peer in peers).strip(" /")
        later = its.get((name, f"{what} heap-note later")) if peers == ours else None
        return f"{text}, and {later} more at a later poll" if later else text

    heads = ["Row", "Instructions: one owner / shared / lazy heap", "by the crate: `rust` / `rust-checked`", "its words nobody's / open",
             "Misses: one owner / shared / lazy heap"]
    of = [("instructions", ours), ("instructions", crate), ("instructions", words), ("misses", ours)]
    return grid(heads, ([name, *(told(name, what, peers) for what, peers in of)]
                        for name in ("insert", "extend", "reset", "remove", "poll")), 5)


def growing():
    """The instructions of a call of a store that grows: a column for each number of entries that stand."""
    found = {(row, entries, peer): number for row, entries, peer, number in rows_of("growing")}
    sizes = ("1000", "10000", "100000")
    names = {"loop": "the program's own loop of a life alone", "life": "a life, by whole polls",
             "life-in-pieces": "a life, by pieces of 64 steps", "rest": "a poll with nothing due",
             "insert": "an insert", "reset": "a reset", "remove": "a remove"}
    return grid(["Call", *(f"{int(size):,} stand" for size in sizes)],
                ([name, *(" / ".join(found[row, size, peer] for peer in ("rust", "rust-checked")) for size in sizes)]
                 for row, name in names.items()))


def adapter():
    """The adapter for tokio beside its peer: the instructions of a call, a column for each number of entries."""
    found = {(name, entries): [peer, ours, f"{int(peer) / int(ours):.1f}"] for name, entries, peer, ours in rows_of("adapter")}
    names, sizes = (dict.fromkeys(it[at] for it in found) for at in (0, 1))
    return grid(["Instructions of", *(it for size in sizes for it in (f"{int(size):,} entries: peer", "here", "ratio"))],
                ([name, *(it for size in sizes for it in found[name, size])] for name in names))


def adapter_stack():
    """What calls of the adapter and of its peer with large values want of the stack, worst first."""
    found = [(int(here) / int(peer), peer, here, f"`{call}`, {profile}") for kind, profile, call, peer, here, *_ in rows_of("adapter-room") if kind == "stack"]
    return grid(["Call", "peer", "here", "ratio"],
                ([name, peer, here, f"{ratio:.1f}"] for ratio, peer, here, name in sorted(found, key=lambda it: (-it[0], -int(it[2])))))


def adapter_soak():
    """What a soak of the adapter did."""
    return grid(["Seconds", "Values made, each dropped once", "Entries that came out", "Calls of tasks and threads"], rows_of("adapter-soak"), 0)


def late():
    """By how much entries of the shared queue were late beside tasks and threads that sleep, worst first."""
    return grid(["What waited", "How often", "late by, p50, µs", "p99, µs", "most, µs"], sorted(rows_of("late"), key=lambda it: -int(it[3])))


def adapter_times():
    """What a touch of an idle timeout takes by the adapter's handle, and by its peer in a `Mutex`, worst first."""
    found = [(float(peer) / float(here), float(peer), float(here), its) for *its, peer, here in rows_of("adapter-times")]
    return grid(["Threads at once", "The clock is read", "Entries", "peer in a `Mutex`, ns", "here, ns", "ratio"],
                ([*its, f"{peer:,.0f}", f"{here:,.0f}", f"{ratio:.1f}"] for ratio, peer, here, its in sorted(found)), 2)


def idle_servers():
    """What idle timeouts take in a server of 10,000 connections, by the adapter and by tokio's timeout."""
    said = {"no_timeouts": "none", "idle_timeouts": "`IdleTimeout`", "by_timeout": "tokio's `timeout`"}
    return grid(["Timeouts", "processor an echo, µs", "instructions an echo, outside of the kernel", "memory a connection, bytes"],
                ([said[name], *figures] for name, *figures in rows_of("idle-servers")))


def calls():
    """The instructions of the calls that the gate compares: a row for each, and a column for each queue."""
    found = {(row.partition("/")[0], peer): count for peer, row, count in rows_of("calls")[1:] if peer in stored.PLAN["calls"]}
    names, peers = (dict.fromkeys(it[at] for it in found) for at in (0, 1))
    said = lambda name: re.sub(r"@(\d+)", lambda it: f", {int(it[1]):,} entries", name)
    return grid(["Call", *(f"`{it}`" for it in peers)], ([said(name), *(found.get((name, it), "") for it in peers)] for name in names))


def way():
    """How long the way of an entry is and how much stands by hand: in bold what isn't yet as it is to be."""
    def told(now, aim):
        return f"**{int(now):,}**" if aim.isdigit() and int(now) > int(aim) else now

    return grid(["", "before", "now", "aim"],
                ([PLAN["way"][name], before, told(now, aim), aim] for name, before, now, aim in rows_of("way")[1:]))


def lives():
    """The instructions of a life in one `DelayQueue`: a row for so many entries that stand, and a column for so many shards."""
    found = {(peer, entries): count for peer, entries, count in rows_of("calls")[1:] if peer.startswith("life/")}
    peers, sizes = (dict.fromkeys(it[at] for it in found) for at in (0, 1))
    heads = (f"{it.partition('/')[2]} shard{'s' * (it != 'life/1')}" for it in peers)
    return grid(["Entries", *heads], ([size, *(found[it, size] for it in peers)] for size in sizes))


def adapter_memory():
    """What a compact of the adapter and of its peer makes of a million entries, the longest beside the peer's first."""
    found = {(it[2], it[3]): [int(figure) for figure in it[4:]] for it in rows_of("adapter-room") if it[:2] == ["compact", "release"]}
    times = lambda part, side: found[part, side][3] / found[part, "the peer"][3]
    parts = sorted({part for part, _ in found}, key=lambda part: -times(part, "here"))
    return grid(["Taken out before, and by whom", "MiB before", "% left", "% at most", "ms", "times the peer's"],
                ([f"{part}, {side}", f"{found[part, side][0] / 1024:.0f}", *found[part, side][1:3], f"{found[part, side][3] / 1000:.0f}", f"{times(part, side):.1f}"]
                 for part in parts for side in ("the peer", "here", "here, with a handle")))


def gate():
    """What the parts of both forms of the gate took, in minutes, of those that took at least one."""
    its = {(form, part, what): told for form, part, what, told in rows_of("gate")}
    forms = dict.fromkeys(form for form, _, _ in its)
    parts = dict.fromkeys(part for form, part, what in its if what == "processor" and float(its[form, part, what]) >= 1)
    heads = [f"`{form}` of `{its[form, 'run', 'commit'][:8]}`, {its[form, 'run', 'cores']} cores" for form in forms]
    return grid(["Part", *(it for head in heads for it in (f"{head}: clock", "processor"))],
                ([part if part == "in all" else f"`{part}`", *(its.get((form, part, what), "") for form in forms for what in ("clock", "processor"))]
                 for part in parts))


def evidence():
    """What stands behind the claims, in numbers."""
    code, proofs = tree.lines(tree.erased(), "//"), tree.lines(tree.files(tree.CRATES, ".antt"), "--")
    functions = [it for path in tree.erased() for it in tree.file_of(path).functions]
    planted = [f"{sum(float(it) for _, its, it in rows_of('plant') if its == what):,.0f}"
               for what in ("refused", "let through", "not judged")]
    queues = re.search(r"let sizes: &\[\(usize, u32\)\] = &\[(.*?)\];", text_of(TOP / "rust/hontkhale/tests/slow/same_calls.rs"), re.S)[1].count("(")
    calls = re.search(r"const CALLS: u64 = if cfg!.debug_assertions. \{ ([\d_]+) \}", text_of(TOP / "rust/hontkhale/tests/models/draw.rs"))[1]
    definitions = sum(not indent for it in tree.crates() for indent, _ in it.definitions())
    told = {
        "Lines of Rust erased from functions that are proved safe, total and true to their contracts":
            f"{code:,} in {len(functions):,} functions, {sum(it.is_public for it in functions):,} of them public",
        "Lines of proofs and definitions, beside the contracts": f"{proofs:,}",
        "Definitions, which a reader has to believe in": f"{definitions:,}",
        "Tests in Rattle, proved safe too": f"{tree.tests():,}",
        "Tests in plain Rust over the erased crate that the gate runs by name":
            f"{len(tree.plain_tests()):,}, {len(tree.plain_tests([tree.ERASED_ONCE])):,} of them once erased from tests in Rattle",
        "Mutations, each named for its bug, that each whole run of the gate tries and the prover refuses": f"{tree.edits():,}",
        "Bodies planted by `rt plant`": f"{planted[0]} refused, {planted[1]} let through and seen by a test, {planted[2]} not judged (the tactics met a limit)",
        "Calls beside a slow model, every answer and count compared": f"{queues * int(calls.replace('_', '')):,}; five times as many in a release build",
        "Compilers of each program": "2; what both print is compared with what is stored",
    }
    return grid(["What", "How many"], told.items(), 2)


def made(mark):
    """A table by the words of its mark."""
    name, *arguments = mark.split()
    return globals()[name.replace("-", "_")](*arguments)
