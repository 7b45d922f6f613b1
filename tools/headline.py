#!/usr/bin/env python3
"""headline.py: prints every definition below the headline, in one text that is read from the top.

It follows the names in the specs of crates/*/specs from `RanLab` of lab_run, and prints each definition that they reach with its comment, chapter
by chapter: the headline, the world, events, claims, clocks, marks, rounds, and what these stand on; and last the types of the program that they
speak of. The last line counts the definitions and their lines, those types aside.
"""

import pathlib
import re
import sys

TOP = pathlib.Path(__file__).resolve().parent.parent
WORD = re.compile(r"[^\s{}(),;:.λ\[\]]+")
ROOT = ("lab_run", "Runs", "RanLab")

# (title, what it is about, crates or crate/files)
CHAPTERS = [
    ("The headline", "What is said of a lab that was run to its end.", ["lab_run/Runs"]),
    ("The world", "What a laboratory is given, and the parts of the world: routers, far sides, the operator, and what is on its way.",
     ["graft_model/Setups", "graft_model/Parts", "graft_model/First", "lab_setup"]),
    ("Events", "The rows: what each actor may do, what it takes and sends, and what becomes of its part; steps and runs of the world; journals.",
     ["graft_model/Steps", "graft_model/RouterRows", "graft_model/TableRows", "graft_model/GraftRows", "graft_model/FarRows",
      "graft_model/OperatorRows", "graft_model/Placements", "graft_model/Evacuations", "evacuation", "graft_model/Decisions",
      "graft_model", "graft_steps", "graft_actors"]),
    ("Claims", "What holds at every moment of a run, and where nothing is left to do: transparent, unchanged, made before broken, solved, emptied.",
     ["graft_model/Claims", "graft_model/Quiet", "world_runs", "graft_laws"]),
    ("Answers", "The one answer of a settled run: when no session has a timer and MEDs are even, what is read of what remotes say, the tables for given "
     "places of sessions, and the graft results of a sure input (RFC 4271, section 9.1.2.2 (c)).",
     ["even_inputs/Laws", "one_answer", "even_inputs", "even_meshes", "sure_inputs", "sure_results", "lab_tables"]),
    ("Clocks", "The order of a journal.", ["run_clocks", "journal_merge"]),
    ("Marks", "What stands behind each round, and how a run goes on and ends.",
     ["world_runs/Marks", "lab_run/Ends", "node_configs/Budgets", "settled_check", "world_nodes"]),
    ("Rounds", "What each actor does between two marks.",
     ["real_rounds", "router_core", "update_plan", "far_side", "link_bag", "operator_core/Turns", "graft_actors", "ring_net",
      "silent_rounds", "bounded_moves"]),
    ("What is seen", "What a lab shows of the last world, and where packets go.",
     ["lab_seen", "operator_core/Grafts", "lab_run/Forwards", "forward_walk", "prefix_trie", "lab_report", "lab_input"]),
    ("Sessions", "A session: its story and what it reads and puts (RFC 4271, sections 6, 8.2.2 and 9.2), its tables (section 3.2), its endpoint.",
     ["session_value", "bgp_story"]),
    ("Decisions", "Policies and the choice of the best route (RFC 4271, section 9.1).", ["decision_core", "route_policy", "loc_rib"]),
    ("Endpoints", "Bytes in order, by sequence numbers (RFC 9293, section 3.4).", ["tcp_seq"]),
    ("Messages", "Messages as octets, and the first fault of those that are none (RFC 4271, sections 4 and 6; RFC 5492; RFC 6793).", ["bgp_types"]),
]


class Spec:
    """A file of specs: the names that it brings in, and its definitions with their comments."""

    def __init__(self, path):
        text = path.read_text()
        self.uses = {}
        for use in re.finditer(r"use Rattle\.(\w+)\.specs\.([\w.]+?)\.\{([^}]*)\}", text):
            for item in use.group(3).split(","):
                names = item.strip().split(" as ")
                if names[0]:
                    self.uses[names[-1].strip()] = (use.group(1), use.group(2), names[0].strip())
        self.definitions, self.comments = {}, {}
        name, comment = None, []
        for line in text.split("\n"):
            if line.startswith("--"):
                if comment is None:
                    comment = []
                comment.append(line)
                name = None
            elif not line.strip():
                if not name:
                    comment = []
            elif line.startswith("use ") or line.startswith("pub use "):
                name, comment = None, []
            else:
                if line[0] not in " \t":
                    found = re.match(r"(?:(?:abbrev|unfoldable|pub|record|data)\s+)*([^\s:({]+)", line).group(1)
                    if found != name and found not in self.definitions:
                        self.comments[found] = comment or []
                    name, comment = found, []
                if name and not line.lstrip().startswith("--"):
                    self.definitions.setdefault(name, []).append(line)

    def named(self, word):
        """The definitions of this file, or of others, that a word of it may mean."""
        if word in self.definitions:
            return [(None, None, word)]
        if word in self.uses:
            return [self.uses[word]]
        return [self.uses[k] for k in self.uses if "◌" in k and word in k.split("◌")] if "◌" not in word else []


def read_specs():
    specs = {}
    for path in sorted(TOP.glob("crates/*/specs/**/*.antt")):
        crate = path.relative_to(TOP).parts[1]
        module = ".".join(path.relative_to(TOP / "crates" / crate / "specs").with_suffix("").parts)
        specs[crate, module] = Spec(path)
    return specs


def reached_from(specs, root):
    seen, todo = set(), [root]
    while todo:
        crate, module, name = todo.pop()
        spec = specs.get((crate, module))
        if (crate, module, name) in seen or spec is None or name not in spec.definitions:
            continue
        seen.add((crate, module, name))
        for word in set(WORD.findall(" ".join(spec.definitions[name]))):
            todo += [(c or crate, m or module, n) for c, m, n in spec.named(word)]
    return seen


def types_of(specs, seen):
    """The types of the program that the definitions name, by crate."""
    named = set()
    for crate, module, name in seen:
        spec = specs[crate, module]
        for word in set(WORD.findall(" ".join(spec.definitions[name]))):
            named |= {(c, n) for c, m, n in spec.named(word) if c and m.startswith("declared.") and m.endswith("." + n)}
    return sorted(named)


def text_of_type(crate, name):
    """A type as its crate declares it, with its comments."""
    for path in sorted((TOP / "crates" / crate / "src").glob("**/*.rt")):
        lines = path.read_text().split("\n")
        for at, line in enumerate(lines):
            if re.match(rf"pub(\(crate\))? (enum|struct) {name}\b", line):
                first = at
                while lines[first - 1].startswith(("///", "#[")):
                    first -= 1
                last = at
                while not lines[last].endswith(("}", ";")) or lines[last].startswith(" "):
                    last += 1
                return "\n".join(lines[first:last + 1]) + "\n"
    return f"{name}, of a library\n"


def chapter_of(crate, module):
    """The number of a file's chapter, and its place in it; the most exact name counts."""
    places = [(len(name), -number, place) for number, (_, _, names) in enumerate(CHAPTERS) for place, name in enumerate(names)
              if name in (crate, f"{crate}/{module}")]
    if not places:
        sys.exit(f"{crate}/{module} has no chapter")
    _, number, place = max(places)
    return -number, place


def main():
    specs = read_specs()
    seen = reached_from(specs, ROOT)
    files = sorted({(chapter_of(crate, module), crate, module) for crate, module, _ in seen})
    lines = 0
    for number, (title, about, _) in enumerate(CHAPTERS):
        print(f"# {number}. {title}\n\n{about}\n")
        for _, crate, module in (f for f in files if f[0][0] == number):
            spec = specs[crate, module]
            print(f"## {crate}, {module}\n\n```")
            for name, body in spec.definitions.items():
                if (crate, module, name) in seen:
                    print("\n".join(spec.comments[name] + body) + "\n")
                    lines += len(body)
            print("```\n")
    print(f"# {len(CHAPTERS)}. Types of the program\n\n```")
    for crate, name in types_of(specs, seen):
        print(f"// {crate}\n{text_of_type(crate, name)}")
    print("```\n")
    print(f"{len(seen)} definitions, {lines} lines")


if __name__ == "__main__":
    main()
