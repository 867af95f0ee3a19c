"""What crates.txt lists, and what the table of seconds has, for bench/graph and bench/gate."""
import functools
import os

TOP = os.path.dirname(os.path.dirname(os.path.realpath(__file__)))


def listed():
    """Returns what each line of crates.txt lists, by the crate's name."""
    found = {}
    with open(f"{TOP}/crates.txt", encoding="utf-8") as file:
        for line in file:
            head, _, uses = line.partition("#")[0].partition(":")
            if head.strip():
                found[head.split()[0]] = uses.split()
    return found


def too():
    """Returns, by the crate's name, what a line of crates.txt lists although another crate on the line stands on it, as the comment `# too: ..` there says."""
    found = {}
    with open(f"{TOP}/crates.txt", encoding="utf-8") as file:
        for line in file:
            head, _, comment = line.partition("#")
            if head.strip() and comment.strip().startswith("too:"):
                found[head.split(":")[0].strip()] = comment.partition(":")[2].split()
    return found


def own(lines):
    """Returns the crates of the repository among those that each line lists, each once."""
    return {name: [it for it in dict.fromkeys(uses) if it in lines] for name, uses in lines.items()}


def seconds():
    """Returns the processor seconds of each crate: proof, tests, all edits together, build of a program. A - stands for none."""
    found = {}
    file = f"{TOP}/bench/seconds.tsv"
    with open(file if os.path.isfile(file) else os.devnull, encoding="utf-8") as rows:
        for row in rows:
            words = row.partition("#")[0].split()
            if words and words[0] != "crate":
                found[words[0]] = tuple(0.0 if it == "-" else float(it) for it in words[1:5])
    return found


def greatest_chain(uses, cost):
    """Returns the greatest sum of costs along a chain of crates, and that chain, lowest first."""

    @functools.lru_cache(None)
    def up_to(name):
        most, chain = max((up_to(it) for it in uses[name]), default=(0, ()))
        return most + cost(name), (*chain, name)

    return max((up_to(it) for it in uses), default=(0, ()))
