"""Tables and a plot of a run of bench/run.

  python3 bench/report.py [FILE]           print the tables of a run, by default that of bench/results.txt, single ratios too
  python3 bench/report.py FILE --write     and keep the run as bench/results.txt, put the tables without single ratios into docs/BENCHMARKS.md,
                                           a summary into README.md, costs by call into docs/USING.md, the plot into docs/benchmarks.svg
  python3 bench/report.py --check          say where these are not those of bench/results.txt
"""

import statistics
import sys
import textwrap
from pathlib import Path

from lines import Run
from plot import plot

TOP = Path(__file__).resolve().parent.parent
RESULTS, PLOT = TOP / "bench/results.txt", TOP / "docs/benchmarks.svg"
START, END = "<!-- measured: bench/run --write -->\n", "<!-- end -->\n"
NEAR = ["clear", "check", "number", "neighbours", "linked", "first", "later_of", "down+up", "ask+link", "ask+commit", "batch", "hear", "new"]
MOST_ASK, MOST_COMMIT = 1.0, 1.1  # of the single call
MOST_GROWTH, MOST_STACK, LEAST_IGRAPH, LEAST_NETWORKX, LEAST_HEARD = 40, 8192, 2, 20, 3


def goal(call):
    """The most of the ratio to line-by-line C."""
    return 1.2 if call in NEAR else 1.3 if call == "staircase" else 1.5


# ---- tables

def table(head, rows):
    lines = [head, ["---"] * len(head), *rows]
    return "".join("| " + " | ".join(str(cell) for cell in line) + " |\n" for line in lines)


def met(good):
    return "met" if good else "missed"


def mean(run, call, kind):
    return statistics.geometric_mean(run.ratios(call, kind))


def words(name):
    return name.replace("_", " ")


def mean_and_worst(run, call, kind):
    ratio, n, site = run.worst(call, kind)
    return [f"{mean(run, call, kind):.2f}", f"{ratio:.2f}", f"{n}, {words(site)}"]


def worst(run):
    for call in run.calls:
        verdict = met(run.worst(call, "plain")[0] <= goal(call))
        yield [call, *mean_and_worst(run, call, "plain"), goal(call), verdict, *mean_and_worst(run, call, "careful")]


def ratios(run, kind):
    for call in run.calls:
        for n in run.sizes:
            yield [call, n, *(f"{run.ratio(call, n, site, kind):.2f}" for site in run.sites)]


def times(run):
    low, high = run.sizes[0], run.sizes[-1]
    for call in run.calls:
        large = (f"{run.engine(call, high, site):.1f}" for site in run.sites)
        yield [call, f"{run.engine(call, low, 'sparse'):.2f}", *large]


def growths(run):
    for call in run.calls:
        in_time = run.engine(call, 512, "sparse") / run.engine(call, 16, "sparse")
        cells = [call, f"{in_time:.0f}"]
        if run.instructions:
            small, large = (run.instructions[call, n] for n in (16, 512))
            cells += [f"{small:,}", f"{large:,}", f"{large / small:.0f}"]
        growth = large / small if run.instructions else in_time
        yield [*cells, met(growth <= MOST_GROWTH)]


def growth_head(run):
    counts = ["instructions, 16", "instructions, 512", "growth"] if run.instructions else []
    return ["call", "growth of time", *counts, f"at most {MOST_GROWTH}"]


def two_steps(run):
    for n in run.sizes:
        for step, most in ((0, MOST_ASK), (1, MOST_COMMIT)):
            values = [run.two_steps(n, site)[step] for site in run.sites]
            yield ["committing" if step else "asking", n, *(f"{x:.2f}" for x in values), most, met(max(values) <= most)]


def hearings(run):
    for site, (links, call, single) in run.heard.items():
        yield [words(site), f"{links:,}", f"{call / 1000:.1f}", f"{single / 1000:.1f}", f"{single / call:.1f}", met(single >= LEAST_HEARD * call)]


def changes(run):
    for site in run.change:
        engine, *others = (run.change_by(site, kind) for kind in ("engine", "plain", "careful", "anew"))
        yield [words(site), f"{engine:.1f}", *(f"{time:.1f}" for time in others), f"{others[-1] / engine:.2f}"]


def igraph(run):
    for site, (engine, alone, change) in run.igraph.items():
        good = met(change >= LEAST_IGRAPH * engine)
        yield [words(site), f"{engine:.1f}", f"{alone:.1f}", f"{alone / engine:.1f}", f"{change:.1f}", f"{change / engine:.1f}", good]


def networkx(run):
    for site, time in run.networkx.items():
        engine = run.change_by(site, "engine")
        yield [words(site), f"{engine:.1f}", f"{time:.0f}", f"{time / engine:.0f}", met(time >= LEAST_NETWORKX * engine)]


def stacks(run):
    for call, count in run.stack.items():
        yield [call, f"{count:,}", met(count <= MOST_STACK)]


def single_ratios(run):
    sites = [words(site) for site in run.sites]
    return "\n".join(["### Ratios to careful C\n", table(["call", "n", *sites], ratios(run, "careful")),
                      "### Ratios to line-by-line C\n", table(["call", "n", *sites], ratios(run, "plain"))])


def change_parts(run):
    if run.heard:
        yield "### A hearing at 512 radios that takes all links down and others up, in milliseconds\n"
        yield table(["site", "links changed", "hearing", "single calls", "times", f"at least {LEAST_HEARD}"], hearings(run))
    yield "### A change at 512 radios, in microseconds\n"
    yield table(["site", "engine", "line-by-line C", "careful C", "all numbers anew in plain C", "anew : engine"], changes(run))
    if run.igraph:
        yield "### A change at 512 radios against igraph, in microseconds\n"
        yield table(["site", "engine", "coreness alone", "times", "change and coreness", "times", f"at least {LEAST_IGRAPH}"], igraph(run))
    if run.networkx:
        yield "### A change at 512 radios against networkx, in microseconds\n"
        yield table(["site", "engine", "change and core numbers", "times", f"at least {LEAST_NETWORKX}"], networkx(run))


def report(run):
    sites = [words(site) for site in run.sites]
    stolen = f"; {run.stolen} % of its time went to other machines during the run" if run.stolen else ""
    parts = [f"Machine: {run.machine}{stolen}.\n", "### The ratios of each call\n",
             table(["call", "to line-by-line C, mean", "worst", "at", "goal, at most", "", "to careful C, mean", "worst", "at"], worst(run))]
    parts += ["### Time of a call of the engine, in microseconds\n",
              table(["call", f"{run.sizes[0]}, sparse", *(f"{run.sizes[-1]}, {site}" for site in sites)], times(run)),
              "### Growth of a call of the engine, sparse sites of 16 and of 512 radios\n",
              table(growth_head(run), growths(run))]
    if run.steps:
        parts += ["### A link call in two steps, in parts of the single call\n",
                  table(["step", "n", *sites, "goal, at most", ""], two_steps(run))]
    parts += [*change_parts(run), "### Stack of a call, in bytes\n", table(["call", "bytes", f"at most {MOST_STACK:,}"], stacks(run))]
    return "\n".join(parts)


# ---- pages

def span(values, form):
    values = list(values)
    return f"{min(values):{form}} to {max(values):{form}}"


def summary(run):
    """A paragraph for README.md."""
    plain, careful = ([ratio for call in run.calls for ratio in run.ratios(call, kind)] for kind in ("plain", "careful"))
    means = [mean(run, call, "careful") for call in run.calls]
    anew = (run.change_by(site, "anew") / run.change_by(site, "engine") for site in run.change)
    compilers = ("the better of " if len(run.compilers) > 1 else "") + " and ".join(run.compilers)
    said = [f"In one run a call took {span(plain, '.2f')} times as long as C that follows its algorithm line by line, at -O3 by {compilers}.",
            "Against C as a careful programmer would write the call it took",
            f"{span(careful, '.2f')} times as long, on average {span(means, '.1f')} times by call.",
            f"At 512 radios a link call took {span((run.change_by(site, 'engine') for site in run.change), '.0f')} microseconds, the check of its"
            " tables with it. Working all numbers out anew in plain C, which checks nothing and keeps no order, took",
            f"{span(anew, '.2f')} times as long."]
    if run.igraph:
        said.append(f"A change took {span((row[2] / row[0] for row in run.igraph.values()), '.1f')} times as long with igraph's C library, its"
                    f" `coreness` alone {span((row[1] / row[0] for row in run.igraph.values()), '.1f')} times.")
    if run.networkx:
        said.append(f"With networkx a change took {span((time / run.change_by(site, 'engine') for site, time in run.networkx.items()), '.0f')} times as long.")
    return textwrap.fill(" ".join(said), 132) + "\n"


def micro(time):
    return f"{time:.2f}" if time < 0.05 else f"{time:.1f}" if time < 1 else f"{time:,.0f}"


def costs(run):
    """A table for docs/USING.md: of each call the time on sparse sites of 16 and of 512 radios, on the worst kind of 512, and the stack."""
    def cost(title, *calls, parts=1):
        small, large = (max(run.engine(call, n, "sparse") for call in calls) / parts for n in (16, 512))
        most = max(run.engine(call, 512, site) for call in calls for site in run.sites) / parts
        return [title, micro(small), micro(large), micro(most), f"{max(run.stack[call] for call in calls):,}"]

    def single(title, call):
        most = max(run.change_by(site, "engine") for site in run.change)
        return [title, *(micro(run.engine("down+up", n, "sparse") / 2) for n in (16, 512)), micro(most), f"{run.stack[call]:,}"]

    def removed(n, site):
        return run.engine("remove+set", n, site) - run.engine("mark_set", n, site)

    heard = {site: call for site, (_, call, _) in run.heard.items()}
    return table(["call", "16 radios, sparse", "512, sparse", "512, worst", "stack, bytes"], [
        cost("clear", "clear"),
        cost("check, number, neighbours, linked, first, later_of", "check", "number", "neighbours", "linked", "first", "later_of"),
        single("link_up, link_down, the mean of both", "new"),
        single("ask_up, ask_down, likewise", "ask+link"),
        single("commit_up, commit_down, likewise", "ask+commit"),
        cost("link_batch, of up to 100 links, with a clear", "batch"),
        cost("hear, 100 links down or up", "hear", parts=2),
        ["hear, all links of the site down and others up", "", f"{heard['sparse']:,}", f"{max(heard.values()):,}", f"{run.stack['hear']:,}"],
        *(cost(call, call) for call in ("core", "backbone", "tree", "staircase", "sheet")),
        cost("script_length, script_write", "script_write"),
        cost("image_write", "image_write"),
        cost("image_read", "image_read", "image_other"),
        cost("image_block", "image_block"),
        cost("mark_set, mark_return, in a full store", "mark_set", "mark_return"),
        ["mark_remove, in a full store", micro(removed(16, "sparse")), micro(removed(512, "sparse")),
         micro(max(removed(512, site) for site in run.sites)), f"{run.stack['remove+set']:,}"]])


def pages(run):
    """Each file that a run is put into, with the text that it has then."""
    for page, text in (TOP / "docs/BENCHMARKS.md", report(run)), (TOP / "README.md", summary(run)), (TOP / "docs/USING.md", costs(run)):
        before, rest = page.read_text().split(START)
        yield page, before + START + "\n" + text + "\n" + END + rest.split(END, 1)[1]
    yield PLOT, plot(run)


def main(words):
    files = [word for word in words if not word.startswith("--")]
    run = Run(files[0] if files else RESULTS)
    if "--check" in words:
        wrong = [page for page, text in pages(run) if page.read_text() != text]
        print(*(f"{page.relative_to(TOP)}: not the tables of bench/results.txt" for page in wrong), sep="\n", end="\n" if wrong else "")
        sys.exit(1 if wrong else 0)
    print(report(run), single_ratios(run), summary(run), sep="\n")
    if "--write" in words:
        RESULTS.write_text(Path(files[0]).read_text())
        for page, text in pages(run):
            page.write_text(text)


main(sys.argv[1:])
