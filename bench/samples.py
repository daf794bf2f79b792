# What measure wrote, read back: one sample an input, with its count of instructions on each side.
# The table and the latency sheet both start from here.
import csv
import os


def counts(path):
    """Instructions of each input. Of callgrind's parts, that named by an input's number holds its call alone; of the plugin's lines,
    one a call, the first is of the call that comes before all inputs."""
    lines, found, name = open(path).read().splitlines(), {}, None
    if lines and lines[0].isdigit():
        return dict(enumerate(map(int, lines[1:])))
    for line in lines:
        if line.startswith("desc: Trigger: Client Request: "):
            name = line.rsplit(": ", 1)[1].strip()
        elif line.startswith("summary: ") and name is not None:
            found[name] = int(line.split()[1])
            name = None
    return {int(k): v for k, v in found.items() if k.isdigit()}


def column(path):
    """Lines of an input's number and a figure."""
    if not os.path.exists(path):
        return {}
    return {int(i): int(v) for i, v in (line.split(",") for line in open(path))}


def read(out, of="families", sides=("yardstick", "library")):
    """Every input as a dict of numbers and names; instructions are those of the call, without the measuring."""
    rows = list(csv.DictReader(open(os.path.join(out, of + ".csv"))))
    stem = "" if of == "families" else of + "."
    nothing = counts(os.path.join(out, stem + "count.nothing"))
    for row in rows:
        for key, value in row.items():
            if key not in ("family", "name"):
                row[key] = int(value)
    for side in sides:
        count = counts(os.path.join(out, stem + "count." + side))
        stack = column(os.path.join(out, stem + "stack." + side))
        nanoseconds = column(os.path.join(out, stem + "time." + side))
        if len(count) != len(rows):
            raise SystemExit("samples: %d inputs but %d counts of the %s" % (len(rows), len(count), side))
        for row in rows:
            i = row["input"]
            row[side] = count[i] - nothing[i]
            row["stack " + side] = stack.get(i, 0)
            row["ns " + side] = nanoseconds.get(i, 0)
    return rows
