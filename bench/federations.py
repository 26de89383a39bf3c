"""Federations of any length: what bench/kills and bench/syncs have in common."""

COUNTER = """
stop = "{stop}"
[[federate]]
name = "src"
outputs = ["y"]
timers = [{{ name = "t", period = "1 ms" }}]
state = [{{ name = "n", value = 0 }}]
reaction = [{{ triggers = ["t"], body = ["n = n + 1", "out.y = n"] }}]
[[federate]]
name = "snk"
inputs = ["x"]
outputs = ["total"]
state = [{{ name = "s", value = 0 }}]
reaction = [{{ triggers = ["x"], body = ["s = s + in.x", "out.total = s"] }}]
[[connection]]
from = "src.y"
to = "snk.x"
"""

STAGE = """
[[federate]]
name = "f{i}"
inputs = ["x"]
outputs = ["y"]
state = [{{ name = "n", value = 0 }}]
reaction = [{{ triggers = ["x"], body = ["n = in.x + 1", "out.y = n"] }}{more}]
"""

STARTS = ', { triggers = ["startup"], body = ["n = 1", "out.y = n"] }'


def counter(stop):
    return COUNTER.format(stop=stop), ["src", "snk"]


def chain(count, stop):
    text = COUNTER.format(stop=stop).split("[[federate]]")
    text = text[0] + "[[federate]]" + text[1].replace('"src"', '"f0"')
    text += "".join(STAGE.format(i=i, more="") for i in range(1, count))
    text += "".join(f'[[connection]]\nfrom = "f{i - 1}.y"\nto = "f{i}.x"\n' for i in range(1, count))
    return text, [f"f{i}" for i in range(count)]


def ring(count, stop):
    text = f'stop = "{stop}"\n' + "".join(STAGE.format(i=i, more=STARTS if i == 0 else "") for i in range(count))
    text += "".join(f'[[connection]]\nfrom = "f{i}.y"\nto = "f{(i + 1) % count}.x"\nafter = "1 ms"\n' for i in range(count))
    return text, [f"f{i}" for i in range(count)]
