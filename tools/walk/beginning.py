"""Begins the proof of a function that has none: a Proof.antt over the made walk, with a first try for each need and a hole for each
invariant. People go on from there, and it is not made again."""

import re


def proof(crate, name, tie):
    """From the made Tie, which declares the needs."""
    own = f"Rattle·{crate}·proofs.proofs.{name.replace('/', '.')}"
    loops = re.findall(r"abbrev pub InvT-(\S+) :", tie)
    needs = re.findall(r"Need-([\w\-·]+)", re.search(r"\n  pub spec :(.*?)Lts\.Closed", tie, re.S).group(1))
    given = "".join(f" Inv-{loop} μ-{loop}" for loop in loops)
    parts = [f"mod Lts\nmod Tie\nuse borrow.Author.Needs.{{needs}}\nuse {own}.Statement.{{statement}}\nuse {own}.Proof.Tie as tie\n"]
    for loop in loops:
        parts.append(f"abbrev Inv-{loop} : tie.InvT-{loop}\nInv-{loop} = ?\n")
        parts.append(f"abbrev μ-{loop} : tie.MeasureT-{loop}\nμ-{loop} = ?\n")
    for need in needs:
        lifetimes = " κs" if re.search(r"-requires(-[0-9]+)?$", need) else ""
        parts.append(f"{need} : tie.Need-{need}{given}\n{need} c{lifetimes} = search needs\n")
    law = name.split("/")[-1].replace("_", "-") + "-spec"
    parts.append(f"pub {law} : {{M : Type 1}} → statement M\n{law} = tie.close (tie.spec{given} {' '.join(needs)})\n")
    return "\n".join(parts)
