"""The office's command: reads the words of the command line. `./sneupelaar --help` tells how it is used."""

import signal
import sys

from helps import HELP, HELPS
from streams import STANDARD_INPUT, Trouble, hold_standard_streams, say, write
from verbs import ANSWERED, TROUBLE, VERBS


class Asked:
    """A verb, its words and its options. Options may stand anywhere before `--`."""

    def __init__(self, words):
        words, behind = (words[:words.index("--")], words[words.index("--") + 1:]) if "--" in words else (words, [])
        options = {word for word in words if is_option(word)}
        self.words = [word for word in words if word not in options] + behind
        self.verb = self.words.pop(0) if self.words else None
        self.help = bool(options & {"-h", "--help"})
        self.quiet = bool(options & {"-q", "--quiet"})
        self.semicolons = "--semicolons" in options
        known = {"-h", "--help", "-q", "--quiet"} | ({"--semicolons"} if self.verb == "unpack" else set())
        if options - known:
            raise Trouble(f"there is no option {min(options - known)!r} here: see ./sneupelaar --help")


def is_option(word):
    """A number below zero is none: it is said to be no member's number."""
    return word.startswith("-") and word != STANDARD_INPUT and not word[1:].isdigit()


def answered(words):
    asked = Asked(words)
    can = f"it can {', '.join(VERBS)}; see ./sneupelaar --help"
    if asked.verb is not None and asked.verb not in VERBS:
        raise Trouble(f"there is no {asked.verb!r}: {can}")
    if asked.help:
        write(HELPS.get(asked.verb, HELP).encode())
        return ANSWERED
    if asked.verb is None:
        raise Trouble(f"nothing is asked for: {can}")
    return VERBS[asked.verb](asked)


def main():
    signal.signal(signal.SIGINT, signal.SIG_DFL)
    hold_standard_streams()
    try:
        return answered(sys.argv[1:])
    except Trouble as trouble:
        say(f"sneupelaar: {trouble}")
        return TROUBLE


if __name__ == "__main__":
    sys.exit(main())
