"""Turns the proofs of a crate's functions to the names that today's Rattle makes for goals, steps and loops.

usage: python3 tools/steps.py CRATE NAMES

CRATE is a crate's folder, NAMES the names.json that `rt check --generated FOLDER --old-names` writes in it. A Proof.antt gets the name that
its theorem has now, and today's name of each goal, step and loop that it cites.
"""

import json
import pathlib
import re
import sys

ENDS = r"(?![\w'-])"
STARTS = r"(?<![\w.'-])"
STANDARD = {"well_formed", "type_inv", "exit_ensures"}


def spec_name(text: str, function: str) -> str:
    old = re.escape(function).replace("_", "[_-]")
    return re.sub(STARTS + old + "[-_]spec" + ENDS, function + "_spec", text)


def loops(text: str, names: dict) -> str:
    table = {old: new for (old, new), _ in names["loops"]}

    def one(found: re.Match[str]) -> str:
        key = found.group(2).replace("-", "_")
        new = table.get(found.group(2)) or {k.replace("-", "_"): v for k, v in table.items()}.get(key)
        return found.group(1) + "-" + (new or found.group(2))

    return re.sub(r"(?<![\w'-])(invariant|decreases)-([\w'-]+)" + ENDS, one, text)


def goals(text: str, names: dict) -> str:
    table = {}
    for old, new in names["needs"]:
        table.setdefault(old, new)
    plain = {}
    for old, new in table.items():
        plain.setdefault(old.replace("-", "_"), new)
    today = {new.replace("-", "_"): new for _, new in names["needs"]}
    places = {}
    for place, new in zip(names["places"], names["places_by_name"]):
        places[place[0].replace("-", "_")] = new

    def need(found: re.Match[str]) -> str:
        name = found.group(1)
        for cut in ("", "overflow-", "overflow_", "bounds-", "nonzero-"):
            if name.startswith(cut):
                rest = name[len(cut) :]
                if rest in table:
                    return "tie.Need-" + table[rest]
                if rest.replace("-", "_") in plain:
                    return "tie.Need-" + plain[rest.replace("-", "_")]
        new = today.get(name.replace("-", "_"))
        return "tie.Need-" + new if new else found.group(0)

    def place(found: re.Match[str]) -> str:
        name = found.group(1).replace("-", "_")
        if found.group(1).startswith("Need-"):
            return found.group(0)
        return "tie." + places[name] if name in places else found.group(0)

    text = re.sub(r"tie\.Need-([\w'-]+)" + ENDS, need, text)
    return re.sub(r"tie\.([A-Z][\w'-]*)" + ENDS, place, text)


def arms(names: dict) -> dict[str, list[tuple[tuple[str, ...], str, str]]]:
    """For a step of an arm of a match: what was read of it, what that is called now, and the place's older name."""
    table: dict[str, list[tuple[tuple[str, ...], str, str]]] = {}
    for place, arm in zip(names["places"], names["arms"]):
        if arm:
            step, _, fields = arm
            for field, old, path in fields:
                table.setdefault(old.replace("-", "_"), []).append((tuple(path), f"{step}.{field}", place[0]))
    return table


def arm(rest: list[str], rows: list[tuple[tuple[str, ...], str, str]]) -> tuple[str, int] | None:
    """Today's name for what a chain reads of an arm's step, and how many of its parts that covers."""
    best = None
    for path, new, place in rows:
        if list(path) != rest[: len(path)]:
            continue
        if not path and rest and rest[0].startswith("keys") and not place.endswith("-" + rest[0]):
            continue
        if best is None or len(path) > best[1]:
            best = (new, len(path))
    return best


def steps(text: str, names: dict) -> str:
    table = {}
    joins = {}
    for place, _, (old, new), _, _ in names["places"]:
        if old:
            (joins if place.startswith("Joined") else table).setdefault(old.replace("-", "_"), new)
    for old, new in joins.items():
        table.setdefault(old, new)
    by_arm = arms(names)
    arguments = {o.split(".")[-1]: n.split(".")[-1] for o, n in names["args"]}
    variables = {v for _, vs in names["loops"] for v in vs}
    variables |= {p for ps in names["params"].values() for p in ps}
    variables |= {row[0] for rows in names["typed"] for row in rows}
    new_names = set(table.values())

    def chain(found: re.Match[str]) -> str:
        parts = found.group(0).split(".")
        if parts[0][0].isupper():
            return found.group(0)
        out = [parts[0]]
        i = 1
        while i < len(parts):
            before, name = parts[i - 1], parts[i]
            after = parts[i + 1] if i + 1 < len(parts) else ""
            name = name.strip("«»")
            key = name.replace("-", "_")
            sure = before in ("c", "before", "w")
            known = arm(parts[i + 1 :], by_arm[key]) if sure and key in by_arm else None
            if name == "before" and any(p != "before" for p in parts[i + 1 :]):
                pass
            elif known:
                out.append(known[0])
                i += known[1]
            elif key in joins and after not in ("true", "false"):
                out.append(joins[key])
            elif key in table and (sure or key not in variables and name not in new_names and table[key] != key + "-1"):
                out.append(table[key])
            elif name == "pre":
                out.append("requires")
            elif name in arguments:
                out.append(arguments[name])
            elif key in variables or key in STANDARD:
                out.append(key)
            else:
                out.append(name)
            i += 1
        return ".".join(out)

    return re.sub(r"(?<![\w'-])[\w']+(?:\.«[\w'-]+»|\.[^\W\d][\w'-]*|\.\d+)+", chain, text)


def main() -> None:
    crate = pathlib.Path(sys.argv[1])
    made = json.loads(pathlib.Path(sys.argv[2]).read_text(encoding="utf-8"))
    changed = 0
    for module, names in made.items():
        found = re.match(r"Rattle-(.+?)-proofs\.(.*)\.Lts$", module)
        if not found:
            continue
        path = crate.joinpath("proofs", *found.group(2).split("."), "Proof.antt")
        if not path.exists():
            continue
        old = path.read_text(encoding="utf-8")
        new = spec_name(old, path.parent.name.lstrip("+"))
        new = steps(goals(loops(new, names), names), names)
        if new != old:
            path.write_text(new, encoding="utf-8")
            changed += 1
    print(f"steps: {changed} files changed in {crate}")


if __name__ == "__main__":
    main()
