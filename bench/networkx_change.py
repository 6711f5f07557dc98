"""The time of a change with networkx: a link struck or added, and all core numbers worked out anew.

Reads the sites that bench/site.c prints. Output, in microseconds, at 512 radios: `networkx SITE TIME`.
"""

import sys
import time

import networkx


def pairs(line):
    ends = [int(word) for word in line.split()]
    return list(zip(ends[::2], ends[1::2]))


def make_changes(graph, changes):
    start = time.perf_counter()
    for a, b in changes:
        graph.remove_edge(a, b)
        networkx.core_number(graph)
        graph.add_edge(a, b)
        networkx.core_number(graph)
    return (time.perf_counter() - start) * 1e6 / (2 * len(changes))


def main():
    lines = sys.stdin.read().splitlines()
    for kind, numbers, changes, links in zip(*[iter(lines)] * 4):
        numbers = dict(enumerate(int(word) for word in numbers.split()))
        graph = networkx.Graph()
        graph.add_nodes_from(numbers)
        graph.add_edges_from(pairs(links))
        if networkx.core_number(graph) != numbers:
            sys.exit(f"networkx has other numbers: {kind}")
        best = min(make_changes(graph, pairs(changes)) for _ in range(3))
        print(f"networkx {kind} {best:.3f}", flush=True)


main()
