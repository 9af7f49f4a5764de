"""Holds what was made to what stands in the repository."""

from making import MADE_BY


def text_of(path):
    return path.read_text() if path.exists() else None


def unlike(root, files):
    """The made files that stand otherwise in the repository, or not at all."""
    return sorted(path for path, text in files.items() if text_of(root / path) != text)


def left_over(root, files):
    """The files that say that they are made, and that nothing makes any more."""
    found = []
    for path in sorted(root.glob("crates/*/proofs/**/*.antt")):
        with path.open() as opened:
            if opened.readline().startswith(MADE_BY) and path.relative_to(root).as_posix() not in files:
                found.append(path.relative_to(root).as_posix())
    return found
