#!/usr/bin/env python3
"""Times the program on federations of growing size: rows or steps a second, peak memory, and how both grow.

  bench/bench.py crates/fedrun/out/fedrun
  bench/bench.py crates/fedrun/out/fedrun --modes whole --only chain,ring --chart chart.svg

Each case is run with a size that grows fourfold until a run takes more than a quarter of --seconds. Shown is the best of
--rounds runs. "time ~ size^E" says how the time grows between the smallest and the largest size that take at least 20 ms,
and "KiB a row" how the memory does. Of replay the size is the count of rounds too, and what is counted are steps: each
round's announces and advances; the frames that a round brings come on top. A chain of 8,192 rounds has a million. On a machine that has other work, repeat a run before you believe it.
"""
import argparse
import math
import os
import subprocess
import sys
import tempfile
import time

ALL_TURNS = "4294967295"


# ---- the text of a federation

def names(words):
    return "[" + ", ".join(f'"{word}"' for word in words) + "]"


def federate(name, reactions=(), inputs=(), outputs=(), actions=(), physical=(), timer="", states=0):
    """A federate whose timer is t, and whose states are s0, s1 and so on."""
    lines = ["", "[[federate]]", f'name = "{name}"']
    lists = (("inputs", inputs), ("outputs", outputs), ("actions", actions), ("physical", physical))
    lines += [f"{key} = {names(words)}" for key, words in lists if words]
    if timer:
        lines.append(f'timers = [{{ name = "t", period = "{timer}" }}]')
    if states:
        lines.append("state = [" + ", ".join(f'{{ name = "s{i}", value = {i} }}' for i in range(states)) + "]")
    for triggers, body in reactions:
        lines += ["[[federate.reaction]]", f"triggers = {names(triggers)}", f"body = {names(body)}"]
    return "\n".join(lines) + "\n"


def connection(source, target, after=None):
    text = f'\n[[connection]]\nfrom = "{source}"\nto = "{target}"\n'
    return text + (f'after = "{after}"\n' if after else "")


def until(microseconds):
    return f'stop = "{microseconds} us"\n'


def source(name="f0"):
    """Counts the ticks of a timer of one microsecond."""
    return federate(name, [(["t"], ["s0 = s0 + 1", "out.y = s0"])], outputs=["y"], timer="1 us", states=1)


def adder(name):
    """Hands on what it gets, and one more."""
    return federate(name, [(["x"], ["s0 = in.x + 1", "out.y = s0"])], inputs=["x"], outputs=["y"], states=1)


# ---- cases: from a size to a federation and its recorded inputs

def few(ticks):
    return until(ticks - 1) + source(), ""


def pending(ticks):
    reactions = [(["t"], ["schedule a 1 s 7"]), (["a"], ["s0 = s0 + in.a"])]
    return until(ticks - 1) + federate("f0", reactions, actions=["a"], timer="1 us", states=1), ""


def chain(ticks, federates=64):
    text = until(ticks - 1) + source()
    text += "".join(adder(f"f{j}") for j in range(1, federates))
    return text + "".join(connection(f"f{j}.y", f"f{j + 1}.x") for j in range(federates - 1)), ""


def diamond(ticks, branches=32):
    text = until(ticks - 1) + source()
    text += "".join(adder(f"m{j}") for j in range(branches))
    inputs = [f"x{j}" for j in range(branches)]
    sums = [f"s0 = s0 + in.{x}" for x in inputs]
    text += federate("sink", [(inputs, sums + ["out.total = s0"])], inputs=inputs, outputs=["total"], states=1)
    text += "".join(connection("f0.y", f"m{j}.x") + connection(f"m{j}.y", f"sink.x{j}") for j in range(branches))
    return text, ""


def ring(steps, federates=16):
    begin = (["startup"], ["out.y = 1"])
    on = (["x"], ["s0 = in.x + 1", "out.y = s0"])
    text = until(steps - 1)
    for j in range(federates):
        reactions = [begin, on] if j == 0 else [on]
        text += federate(f"f{j}", reactions, inputs=["x"], outputs=["y"], states=1)
    return text + "".join(connection(f"f{j}.y", f"f{(j + 1) % federates}.x", "1 us") for j in range(federates)), ""


def heavy(ticks, reactions=64, lines=64):
    operators = ["+", "-", "*", "min", "max", "<", "=="]

    def line(r, k):
        target, a, b = (r + k) % 16, (5 * r + 3 * k) % 16, (7 * r + k) % 16
        guard = "when has.t : " if k % 8 == 7 else ""
        return f"{guard}s{target} = s{a} {operators[(r + k) % 7]} s{b}"

    bodies = [(["t"], [line(r, k) for k in range(lines)]) for r in range(reactions)]
    return until(ticks - 1) + federate("f0", bodies, timer="1 us", states=16), ""


def wide(federates, fan=16):
    """Each federate is connected to the next ones, round and round, and sends once."""
    text = until(federates)
    inputs = [f"x{k}" for k in range(fan)]
    reactions = [(["startup"], ["out.y = 1"]), (inputs, [f"s0 = s0 + in.{x}" for x in inputs])]
    text += "".join(federate(f"f{j}", reactions, inputs=inputs, outputs=["y"], states=1) for j in range(federates))
    for j in range(federates):
        text += "".join(connection(f"f{j}.y", f"f{(j + k + 1) % federates}.x{k}", "1 us") for k in range(fan))
    return text, ""


def layers(federates):
    """Each federate of the upper half gets something from each of the lower half, without delay."""
    half = federates // 2
    ports = [f"x{k}" for k in range(half)]
    sums = [f"s0 = s0 + in.{x}" for x in ports]
    text = until(0)
    text += "".join(federate(f"a{j}", [(["startup"], ["out.y = 1"])], outputs=["y"]) for j in range(half))
    text += "".join(federate(f"b{j}", [(ports, sums)], inputs=ports, states=1) for j in range(half))
    return text + "".join(connection(f"a{k}.y", f"b{j}.x{k}") for j in range(half) for k in range(half)), ""


def inputs(count):
    reactions = [(["p"], ["s0 = s0 + in.p", "out.y = s0"])]
    text = until(count) + federate("f0", reactions, outputs=["y"], physical=["p"], states=1)
    entry = '[[input]]\nfederate = "f0"\naction = "p"\ntime = "{0} us"\nvalue = {0}\n'
    return text, "".join(entry.format(k) for k in range(count))


# name: (the function, the smallest size, the largest one, what the size is)
CASES = {
    "few": (few, 1_000, 4_096_000, "ticks of one federate, one event pending"),
    "pending": (pending, 1_000, 4_096_000, "ticks of one federate, as many events pending"),
    "chain": (chain, 16, 65_536, "ticks of a chain of 64 federates"),
    "diamond": (diamond, 32, 65_536, "ticks of 32 federates between two"),
    "ring": (ring, 1_000, 4_096_000, "steps of a value round 16 federates"),
    "heavy": (heavy, 16, 65_536, "ticks, 4096 lines each"),
    "wide": (wide, 4, 64, "federates, 16 connections each"),
    "layers": (layers, 4, 64, "federates, each of one half connected to each of the other"),
    "inputs": (inputs, 1_024, 65_536, "recorded inputs"),
}

# name: from the files of federation, inputs and schedule to the words, which cases are for it, and what is counted
MODES = {
    "whole": (lambda fed, recorded, _: ["whole", fed, recorded, ALL_TURNS], list(CASES), "row"),
    "run": (lambda fed, recorded, _: ["run", fed, recorded, "--turns", ALL_TURNS], ["few", "chain", "diamond", "ring"], "row"),
    "check": (lambda fed, recorded, _: ["check", fed], ["wide", "layers"], "row"),
    "replay": (lambda fed, recorded, rounds: ["replay", fed, recorded, rounds], ["few", "chain", "diamond", "ring"], "step"),
}

# How many lines `round` a schedule file has room for.
MOST_ROUNDS = 2**20 // len("round\n")


# ---- measuring

class Failed(Exception):
    pass


def peak_of(pid, program):
    """The most memory so far in KiB, 0 before the process is the program and after its end."""
    try:
        if os.readlink(f"/proc/{pid}/exe") != program:
            return 0
        with open(f"/proc/{pid}/status", encoding="ascii") as status:
            return next((int(line.split()[1]) for line in status if line.startswith("VmHWM")), 0)
    except OSError:
        return 0


def run(program, words, watch):
    """Seconds; and, where it is watched, the lines that were printed and the peak in KiB."""
    with tempfile.TemporaryFile() as out, tempfile.TemporaryFile() as err:
        start = time.perf_counter()
        process = subprocess.Popen([program] + words, stdout=out if watch else subprocess.DEVNULL, stderr=err)
        peak = 0
        while watch and process.poll() is None:
            peak = max(peak, peak_of(process.pid, program))
            time.sleep(0.0005)
        process.wait()
        seconds = time.perf_counter() - start
        err.seek(0)
        if process.returncode:
            raise Failed(f"status {process.returncode}: {err.read().decode(errors='replace').strip()[:100]}")
        out.seek(0)
        rows = sum(part.count(b"\n") for part in iter(lambda: out.read(1 << 20), b""))
        return seconds, rows, peak


def points(program, mode, case, options, folder):
    """One measurement a size: size, rows or steps, seconds, KiB."""
    make, size, most, _ = CASES[case]
    words_of, _, counted = MODES[mode]
    if counted == "step":
        most = min(most, MOST_ROUNDS)
    measured = []
    while size <= most:
        text, recorded = make(size)
        files = []
        schedule = "round\n" * size if counted == "step" else ""
        for name, content in (("federation.toml", text), ("inputs.toml", recorded), ("rounds.schedule", schedule)):
            path = os.path.join(folder, name)
            with open(path, "w", encoding="ascii") as file:
                file.write(content)
            files.append(path)
        words = words_of(files[0], files[1] if recorded else "-", files[2])
        for _ in range(10):
            _, count, peak = run(program, words, watch=True)
            if peak:
                break
        if counted == "step":
            count = 2 * size * text.count("[[federate]]")
        seconds = min(run(program, words, watch=False)[0] for _ in range(options.rounds))
        measured.append((size, count, seconds, peak))
        if seconds > options.seconds / 4:
            break
        size *= 4
    return measured


def exponent(measured):
    """How the time grows with the size, between the first size that takes 20 ms and the last."""
    long = [point for point in measured if point[2] >= 0.02]
    if len(long) < 2:
        return "too short to tell"
    first, last = long[0], long[-1]
    return f"time ~ size^{math.log(last[2] / first[2]) / math.log(last[0] / first[0]):.2f}"


def memory_growth(measured, counted):
    (_, few, _, few_kib), (_, many, _, kib) = measured[0], measured[-1]
    return f"{(kib - few_kib) / (many - few):.3f} KiB a {counted}" if many > few else f"no more {counted}s"


# ---- a chart

COLOURS = ["#1b6ca8", "#d1495b", "#2e933c", "#edae49", "#6a4c93", "#00798c", "#8d6a4f", "#444444"]


def panel(left, title, lines):
    """An SVG group: each line is a name and its points (size, value), both axes by powers of ten."""
    top, width, height = 40, 420, 340
    values = [point for _, line in lines for point in line]
    low_x, high_x = (f(math.log10(x) for x, _ in values) for f in (min, max))
    low_y, high_y = (f(math.log10(y) for _, y in values) for f in (min, max))
    low_x, low_y = math.floor(low_x), math.floor(low_y)
    high_x, high_y = max(math.ceil(high_x), low_x + 1), max(math.ceil(high_y), low_y + 1)

    def place(x, y):
        across = (math.log10(x) - low_x) / (high_x - low_x)
        up = (math.log10(y) - low_y) / (high_y - low_y)
        return f"{left + across * width:.1f},{top + (1 - up) * height:.1f}"

    parts = [f'<text x="{left}" y="{top - 14}" font-weight="bold">{title}</text>']
    for power in range(low_x, high_x + 1):
        x, y = place(10**power, 10**low_y).split(",")
        parts.append(f'<path d="M{x} {top}V{y}" stroke="#ddd"/><text x="{x}" y="{float(y) + 16}" text-anchor="middle">1e{power}</text>')
    for power in range(low_y, high_y + 1):
        x, y = place(10**low_x, 10**power).split(",")
        parts.append(f'<path d="M{x} {y}h{width}" stroke="#ddd"/><text x="{left - 6}" y="{y}" text-anchor="end" dy="4">1e{power}</text>')
    for (_, line), colour in zip(lines, COLOURS * len(lines)):
        path = " ".join(place(x, y) for x, y in line)
        parts.append(f'<polyline points="{path}" fill="none" stroke="{colour}" stroke-width="2"/>')
    return "\n".join(parts)


def chart(results):
    """Rows or steps a second and peak memory by size, one line for each mode and case."""
    def lines(value):
        found = [(f"{mode} {case}", [(p[0], value(p)) for p in measured if value(p) > 0]) for (mode, case), measured in results]
        return [line for line in found if line[1]]

    speed, memory = lines(lambda p: p[1] / p[2]), lines(lambda p: p[3] / 1024)
    legend = "\n".join(
        f'<path d="M1060 {52 + 18 * i}h20" stroke="{colour}" stroke-width="3"/><text x="1086" y="{56 + 18 * i}">{name}</text>'
        for i, ((name, _), colour) in enumerate(zip(speed, COLOURS * len(speed)))
    )
    return (
        '<svg xmlns="http://www.w3.org/2000/svg" width="1220" height="430" font-family="sans-serif" font-size="12">\n'
        '<rect width="1220" height="430" fill="white"/>\n'
        + "\n".join([panel(60, "rows or steps a second by size", speed), panel(590, "peak memory by size, MiB", memory), legend])
        + "\n</svg>\n"
    )


def known(words, table):
    unknown = [word for word in words if word not in table]
    if unknown:
        sys.exit(f"bench: no {', '.join(unknown)}; there are {', '.join(table)}")
    return words


def main():
    cases = "\n".join(f"  {name:8} {what}" for name, (_, _, _, what) in CASES.items())
    parser = argparse.ArgumentParser(
        description=__doc__,
        epilog=f"modes: {', '.join(MODES)}\ncases, by what their size counts:\n{cases}",
        formatter_class=argparse.RawDescriptionHelpFormatter,
    )
    parser.add_argument("program", help="the program's path")
    parser.add_argument("--modes", default=",".join(MODES), help="which commands, parted by commas (all)")
    parser.add_argument("--only", default=",".join(CASES), help="which cases, parted by commas (all)")
    parser.add_argument("--seconds", type=float, default=2.0, help="how long a run may take, about (2)")
    parser.add_argument("--rounds", type=int, default=3, help="how many runs of each size, of which the best counts (3)")
    parser.add_argument("--chart", metavar="FILE", help="writes an SVG chart")
    options = parser.parse_args()
    program = os.path.realpath(options.program)
    modes, only = known(options.modes.split(","), MODES), known(options.only.split(","), CASES)
    results = []
    print(f"{'mode':6} {'case':8} {'size':>9} {'rows/steps':>10} {'seconds':>9} {'a second':>14} {'peak MiB':>9}")
    with tempfile.TemporaryDirectory() as folder:
        for mode in modes:
            for case in (case for case in MODES[mode][1] if case in only):
                try:
                    measured = points(program, mode, case, options, folder)
                except (Failed, OSError) as failure:
                    sys.exit(f"bench: {mode} {case}: {failure}")
                for size, count, seconds, peak in measured:
                    speed = f"{count / seconds:,.0f}"
                    print(f"{mode:6} {case:8} {size:9,} {count:10,} {seconds:9.4f} {speed:>14} {peak / 1024:9.1f}")
                print(f"{mode:6} {case:8} {exponent(measured)}, {memory_growth(measured, MODES[mode][2])}", flush=True)
                results.append(((mode, case), measured))
    if options.chart:
        with open(options.chart, "w", encoding="ascii") as file:
            file.write(chart(results))


if __name__ == "__main__":
    main()
