"""The lines of a run of bench/run, read."""

from collections import defaultdict
from pathlib import Path


class Run:
    """times[call][n, site] holds the time by each program; instructions[call, n] the engine's count; the others go by site."""

    def __init__(self, path):
        self.machine, self.stolen, self.programs = "", None, []
        self.times, self.stack, self.steps, self.instructions = defaultdict(dict), {}, {}, {}
        self.heard, self.change, self.igraph, self.networkx = {}, {}, {}, {}
        for line in Path(path).read_text().splitlines():
            word, rest = line.split(" ", 1)
            getattr(self, "take_" + word)(rest)

    # ---- lines

    def take_machine(self, rest):
        self.machine = rest.replace("x86_64", "x86-64")

    def take_stolen(self, rest):
        self.stolen = rest

    def take_programs(self, rest):
        self.programs = rest.split()

    def take_time(self, rest):
        call, n, site, *times = rest.split()
        self.times[call][int(n), site] = {name: float(time) for name, time in zip(self.programs, times) if time != "-"}

    def take_instructions(self, rest):
        call, n, count = rest.split()
        self.instructions[call, int(n)] = int(count)

    def take_stack(self, rest):
        call, count = rest.split()
        self.stack[call] = int(count)

    def take_steps(self, rest):
        n, site, *times = rest.split()
        self.steps[int(n), site] = [float(time) for time in times]

    def take_heard(self, rest):
        site, *numbers = rest.split()
        self.heard[site] = [int(x) for x in numbers]

    def take_change(self, rest):
        site, *times = rest.split()
        self.change[site] = dict(zip(self.programs, map(float, times)))

    def take_igraph(self, rest):
        site, *times = rest.split()
        self.igraph[site] = [float(time) for time in times]

    def take_networkx(self, rest):
        site, time = rest.split()
        self.networkx[site] = float(time)

    # ---- what they say

    @property
    def calls(self):
        return list(self.times)

    @property
    def sizes(self):
        return sorted({n for row in self.times.values() for n, _ in row})

    @property
    def sites(self):
        return list(dict.fromkeys(site for row in self.times.values() for _, site in row))

    @property
    def compilers(self):
        return [name.split("_", 1)[1] for name in self.programs if name.startswith("plain_")]

    def engine(self, call, n, site):
        return self.times[call][n, site]["engine"]

    def ratio(self, call, n, site, kind):
        """The engine's time by that of C of a kind, plain or careful: by the compiler whose program was faster."""
        return self.engine(call, n, site) / best(self.times[call][n, site], kind)

    def ratios(self, call, kind):
        return [self.ratio(call, n, site, kind) for n, site in self.times[call]]

    def worst(self, call, kind):
        return max((self.ratio(call, n, site, kind), n, site) for n, site in self.times[call])

    def change_by(self, site, kind):
        return best(self.change[site], kind)

    def two_steps(self, n, site):
        """Asking, and committing, in parts of the single call."""
        single, asked, both = self.steps[n, site]
        asking = asked - single
        return asking / single, (both - asking) / single


def best(times, kind):
    return min(time for name, time in times.items() if name.split("_")[0] == kind)
