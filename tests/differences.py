"""What differs between a program and the second program: found, shown and saved."""

from collections import namedtuple

import programs

WRITERS = ("write_hour", "written")

# What differs: its name, the input, the words of the program, and what the two wrote.
Difference = namedtuple("Difference", "name data words expected got")


def differing(commands, name, data, *wanted):
    """The outputs that differ, of the programs that are compared: `wanted` are the words of each and what it must write."""
    found = []
    for words, expected in wanted:
        words = [str(word) for word in words]
        if words[0] in commands:
            got = programs.run(commands[words[0]] + words[1:], data)
            if got != expected:
                found.append(Difference(name, data, words, expected, got))
    return found


def show(difference, saved):
    print(f"compare: {difference.name}: {' '.join(difference.words)} differs; the input is in {saved}")
    for name, text in (("second program", difference.expected), ("program", difference.got)):
        print(f"---- {name} wrote:")
        text = of_a_file(text, difference) if difference.words[0] in WRITERS else text.decode("latin-1")
        print(text, end="" if text.endswith("\n") else "\n")
    print("----", flush=True)


def of_a_file(text, difference):
    """A file is not for reading: its length, and its bytes from the first that differs."""
    pairs = zip(difference.expected, difference.got)
    alike = next((place for place, (one, other) in enumerate(pairs) if one != other), min(len(difference.expected), len(difference.got)))
    return f"{len(text)} bytes, from byte {alike} on {text[alike:alike + 16].hex(' ')}"


def save(folder, seed, difference):
    folder.mkdir(parents=True, exist_ok=True)
    kind, index = difference.name.split()[:2]
    path = folder / f"seed-{seed}-{index}.{kind}"
    path.write_bytes(difference.data)
    return path
