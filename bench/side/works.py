"""The works of bench/side: for each form of each work the model and the script of tlmsim, how much is done, and how it is counted.

A work is done some number of times: so many activations of a process, cycles, lines or rounds. A `Budget` runs on for ever and
is ended by the budget, of which each time takes so many steps; its activations are counted in the lines of `--log turns`, or its
lines themselves. A `Length` is as long as its model or script says, and its last line or its final value has how often it was done.
"""
import re
from dataclasses import dataclass
from typing import Callable

MOST_STEPS = 67_108_864
# How often a work is done in the two runs whose instructions are compared, and in the one that is timed.
TWO_RUNS, TIMED = (5_000, 15_000), 500_000


@dataclass(frozen=True)
class Form:
    """One form of a work."""

    work: str  # what is done, for the table
    program: str  # the C++ file, without its ending
    word: str  # the form, as the C++ program is told
    unit: str  # what is counted
    processes: int  # as the C++ program is told
    model: Callable[[int], str]  # the text of the model, by how often it is done
    script: Callable[[int], str]
    counted: str  # what is counted in the report: each line that this matches, or the number in the only one
    steps: int = 0  # of a `Budget`, the steps of each time; of a `Length` 0
    first: int = 0  # of a `Budget`, the steps before it goes on evenly
    same_lines: bool = False  # whether both sides print the same lines

    @property
    def name(self):
        return f"{self.program}_{self.processes}_{self.word}" if self.processes else f"{self.program}_{self.word}"

    def budget(self, times):
        return self.first + self.steps * times if self.steps else MOST_STEPS


def ring_of(count, item):
    """A model of one module with so many signals, and an item for each that hands its value on to the next."""
    lines = ["module Ring {", *(f"  signal bool s{at};" for at in range(count))]
    for at in range(count):
        last = at + 1 == count
        lines.append("  " + item.format(at=at, into=0 if last else at + 1, value=f"!s{at}" if last else f"s{at}"))
    return "\n".join([*lines, "}", "top Ring m;", ""])


def ring(count, word):
    item = {
        "methods": "method m{at} sensitive s{at} {{ write s{into} {value}; }}",
        "threads": "thread m{at} {{ while true {{ write s{into} {value}; wait s{at}; }} }}",
    }[word]
    return Form(
        work=f"a ring of {count:,} {word}" + (", each waiting for its signal by name" if word == "threads" else ""),
        program="ring",
        word=word,
        unit="activation",
        processes=count,
        model=lambda _: ring_of(count, item),
        script=endless,
        counted=TURN,
        # the process is taken, (tests its condition,) writes, returns or waits; update phase, delta notification phase
        steps=5 if word == "methods" else 6,
        first=4 * count + 100,
    )


def sleepers(count, word):
    spawn, sleep = {"methods": ("spawn method", "next_trigger"), "threads": ("spawn", "wait")}[word]
    model = f"""\
module Sleepers {{
  event e;
  event f;
  var uint<32> i;
  func sleep() {{ {sleep} e for 1 s; }}
  thread rounds {{
    while i < {count} {{ {spawn} sleep(); i = i + 1; }}
    i = 0;
    while i < %d {{ notify f after 1 ns; wait f; i = i + 1; }}
    print "rounds" i;
    stop;
  }}
}}
top Sleepers m;
"""
    return Form(
        work=f"{count:,} {word} sleep, one thread goes round",
        program="sleepers",
        word=word,
        unit="round",
        processes=count,
        model=lambda times: model % times,
        script=endless,
        counted=r"\d+ m\.rounds rounds (\d+)",
    )


def endless(_):
    return "run\n"


TURN = r"\d+ \S+ turn \d+"

TOGGLE = """\
module Plain {
  signal bool s;
  method turn sensitive s { write s !s; }
}
top Plain m;
"""

TOGGLE_BY_PORTS = """\
module Inverter {
  in bool from;
  out bool into;
  method turn sensitive from { write into !from; }
}
module Ports {
  signal bool s;
  inst Inverter i;
  bind i.from to s;
  bind i.into to s;
}
top Ports m;
"""

COUNTER = """\
module Counter {
  clock clk period 10 ns high 5 ns;
  signal uint<32> q;
  method tick sensitive clk.pos dont_initialize { write q q + 1; }
}
top Counter m;
"""

COUNTER_BY_THREAD = """\
module Counter {
  clock clk period 10 ns high 5 ns;
  signal uint<32> q;
  thread ticks sensitive clk.pos { while true { wait; write q q + 1; } }
}
top Counter m;
"""

PRINT = """\
module Printer {
  thread t { var uint<32> n; while true { print "n" n; n = n + 1; } }
}
top Printer m;
"""

PRINT_TIMED = """\
module Printer {
  thread t { var uint<32> n; while n < %d { print "n" n; n = n + 1; wait for 1 ns; } }
}
top Printer m;
"""

SPAWNED = """\
module Spawned {
  func work() { }
  thread rounds {
    var uint<32> i;
    while i < %d { spawn work(); i = i + 1; if i %% 50 == 0 { wait for 1 ns; } }
    print "processes" i;
    stop;
  }
}
top Spawned m;
"""

FORMS = [
    Form(
        work="a method that toggles its own signal",
        program="toggle",
        word="plain",
        unit="activation",
        processes=0,
        model=lambda _: TOGGLE,
        script=endless,
        counted=TURN,
        steps=5,  # the method is taken, writes, returns; update phase, delta notification phase
        first=100,
    ),
    Form(
        work="the same through two ports",
        program="toggle",
        word="ports",
        unit="activation",
        processes=0,
        model=lambda _: TOGGLE_BY_PORTS,
        script=endless,
        counted=TURN,
        steps=5,
        first=100,
    ),
    *(ring(count, word) for count in (100, 1_000, 5_000) for word in ("methods", "threads")),
    Form(
        work="a clocked counter, a method",
        program="counter",
        word="method",
        unit="cycle",
        processes=0,
        model=lambda _: COUNTER,
        script=lambda times: f"run {10 * times - 1} ns\n",
        counted=r"final m\.q (\d+)",
    ),
    Form(
        work="the same, a thread that waits for its list",
        program="counter",
        word="thread",
        unit="cycle",
        processes=0,
        model=lambda _: COUNTER_BY_THREAD,
        script=lambda times: f"run {10 * times - 1} ns\n",
        counted=r"final m\.q (\d+)",
    ),
    Form(
        work="a print in a loop",
        program="print",
        word="loop",
        unit="line",
        processes=0,
        model=lambda _: PRINT,
        script=endless,
        counted=r"\d+ m\.t n \d+",
        steps=3,  # the condition, the print, the sum
        first=2,  # `run`, initialization; then the thread is taken, which is one step more, and one line less is printed
        same_lines=True,
    ),
    Form(
        work="the same, a nanosecond after each line",
        program="print",
        word="timed",
        unit="line",
        processes=0,
        model=lambda times: PRINT_TIMED % times,
        script=endless,
        counted=r"\d+ m\.t n \d+",
        same_lines=True,
    ),
    sleepers(60_000, "methods"),
    sleepers(10_000, "threads"),
    Form(
        work="fifty threads spawned each nanosecond, each ending at once",
        program="spawned",
        word="threads",
        unit="process",
        processes=0,
        model=lambda times: SPAWNED % times,
        script=endless,
        counted=r"\d+ m\.rounds processes (\d+)",
    ),
]


def count(form, report):
    """How often the work was done, by its report."""
    pattern = re.compile(form.counted)
    found = [it for it in map(pattern.fullmatch, report) if it]
    return int(found[0][1]) if pattern.groups and found else len(found)
