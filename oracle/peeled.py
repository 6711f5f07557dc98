"""A site as document 01 describes it, quick enough for 512 radios.

Core numbers come by discarding: for k rising, radios with fewer than k
neighbours left are thrown out until none is. Neighbour counts are kept as
counters.
"""

from questions import link_refusal


class Site:
    def __init__(self, n):
        self.n = n
        self.near = [set() for _ in range(n)]
        self.numbers, self.order = [0] * n, list(range(n))

    def refusal(self, up, a, b):
        return link_refusal(self.n, up, a, b, lambda: b in self.near[a], lambda v: len(self.near[v]))

    def core_numbers(self):
        left = [len(near) for near in self.near]
        numbers, members, k = [0] * self.n, set(range(self.n)), 0
        while members:
            poor = [v for v in members if left[v] < k]
            while poor:
                v = poor.pop()
                if v not in members:
                    continue
                members.remove(v)
                numbers[v] = k - 1
                for u in self.near[v] & members:
                    left[u] -= 1
                    if left[u] < k:
                        poor.append(u)
            k += 1
        return numbers

    def lay_out(self, waiting, above, most):
        """The next is always the first that has at most `most` neighbours
        among the ones not yet laid out and the radios above."""
        place = {v: i for i, v in enumerate(waiting)}
        left = {v: sum(u in place or u in above for u in self.near[v]) for v in waiting}
        fits = {place[v] for v in waiting if left[v] <= most}
        laid, gone = [], set()
        while len(laid) < len(waiting):
            i = min(fits)
            fits.remove(i)
            v = waiting[i]
            laid.append(v)
            gone.add(v)
            for u in self.near[v]:
                if u in place and u not in gone:
                    left[u] -= 1
                    if left[u] == most:
                        fits.add(place[u])
        return laid

    def call(self, up, a, b):
        """Refusal number, step, changed radios."""
        number = self.refusal(up, a, b)
        if number:
            return number, 0, []
        before, level = self.numbers, min(self.numbers[a], self.numbers[b])
        for v, u in ((a, b), (b, a)):
            if up:
                self.near[v].add(u)
            else:
                self.near[v].remove(u)
        after = self.core_numbers()
        changed = [v for v in range(self.n) if before[v] != after[v]]
        moved = set(changed)
        old = [v for v in self.order if before[v] == level]
        gone, rest = [v for v in old if v in moved], [v for v in old if v not in moved]
        if up:
            above = {v for v in range(self.n) if after[v] > level}
            stretch = self.lay_out(rest, above, level) + gone
        else:
            still = {v for v in range(self.n) if after[v] >= level}
            stretch = self.lay_out(gone, still, level - 1) + rest
        self.order = ([v for v in self.order if before[v] < level] + stretch
                      + [v for v in self.order if before[v] > level])
        self.numbers = after
        return 0, (1 if up else -1) if changed else 0, changed
