"""The figures of a CSV of bench/run: medians, and the least and the greatest round of each."""

import csv
import os

PLACES = ("what", "queue", "parameter", "threads", "workload", "items")

# In what the greatest rank error is measured: the workload, and by how many times as many threads as the other figures.
SITUATIONS = [("hold", 1), ("crowded hold", 2), ("crowded hold", 4), ("stopped hold", 1)]


class Medians:
    """The medians, and what is not measured, by what, queue, parameter, threads, workload and items."""

    def __init__(self, path):
        self.values = {}
        self.spreads = {}
        self.everywhere = None  # the settings that are measured with each number of threads, once asked for
        with open(path, encoding="utf-8") as file:
            for row in csv.DictReader(line for line in file if not line.startswith("#")):
                self.add(row)

    def add(self, row):
        key = tuple(int(row[name]) if name in ("threads", "items") else row[name] for name in PLACES)
        self.values[key] = float(row["value"])
        self.spreads[key] = float(row["least"]), float(row["greatest"])

    def get(self, *key):
        return self.values.get(key)

    def spread(self, *key):
        """The least and the greatest of all rounds."""
        return self.spreads.get(key, (None, None))

    def greatest_error(self, queue, parameter, threads, items, situation):
        """The greatest rank error of all rounds that was certain in threads; none where it was not measured."""
        workload, times = situation
        return self.spread("rank_certain_max", queue, parameter, times * threads, workload, items)[1]

    def heap_alone(self, what, workload, items):
        """The median of a heap without a lock, by one thread."""
        return self.get(what, "heap alone", "-", 1, workload, items)

    def shown(self, queue):
        """The setting of a queue that is measured with each number of threads; none where there is none."""
        if self.everywhere is None:
            pairs = self.all("queue", "parameter", what="throughput", threads=1)
            self.everywhere = {queue: parameter for queue, parameter in reversed(pairs)}
        return self.everywhere.get(queue)

    def all(self, *names, **given):
        """The different entries at these places of the keys, in the order of the file, where others are as given."""
        found = {}
        for key in self.values:
            if all(key[PLACES.index(name)] == value for name, value in given.items()):
                entries = tuple(key[PLACES.index(name)] for name in names)
                found[entries[0] if len(entries) == 1 else entries] = True
        return list(found)


def numbers_of(parameter):
    """The numbers of a setting of ours, such as k=1024; refill=64; balance=16."""
    return {name: int(value) for name, value in (part.split("=") for part in parameter.split("; "))}


def default_csv():
    return os.path.join(os.path.dirname(os.path.realpath(__file__)), "results.csv")
