#!/usr/bin/env python3
"""Validates what graftlab prints with --json against docs/report.schema.json, and compares each of its values with the text form.

    json_schema.py PROGRAM [LAB..]

PROGRAM is graftlab; without LAB all of examples/ are taken. Each LAB is checked, run, tested and shown, and asked for its timeline and for
the reasons of the routes of each of its routers, once as text and once as JSON, by one worker; and drills 1 to 3 are run. From each object
the text is written anew, line by line, and must be the one that the program prints; and the object must be compact, with its members in
rising order, and have one newline behind it. Prints a line for each LAB, and for each difference another; ends with status 1 where there
is one.
"""
import json
import pathlib
import re
import subprocess
import sys

TOP = pathlib.Path(__file__).resolve().parent.parent


# ---- the schema: the words of JSON Schema 2020-12 that docs/report.schema.json uses

TYPES = {"object": dict, "array": list, "string": str, "boolean": bool, "null": type(None)}


def is_of(value, kind):
    if kind == "integer":
        return isinstance(value, int) and not isinstance(value, bool)
    return isinstance(value, TYPES[kind])


def same(a, b):
    return type(a) is type(b) and a == b


def faults(value, schema, root, place="$"):
    """The places at which a value doesn't fit a schema, with what is wrong there."""
    if "$ref" in schema:
        yield from faults(value, root["$defs"][schema["$ref"].removeprefix("#/$defs/")], root, place)
    kinds = schema.get("type")
    if kinds is not None and not any(is_of(value, kind) for kind in ([kinds] if isinstance(kinds, str) else kinds)):
        yield f"{place}: not of type {kinds}"
        return
    if "const" in schema and not same(value, schema["const"]):
        yield f"{place}: not {schema['const']!r}"
    if "enum" in schema and not any(same(value, choice) for choice in schema["enum"]):
        yield f"{place}: {value!r} is none of {schema['enum']}"
    if "oneOf" in schema:
        fitting = sum(not any(True for _ in faults(value, choice, root, place)) for choice in schema["oneOf"])
        if fitting != 1:
            yield f"{place}: fits {fitting} of {len(schema['oneOf'])} forms"
    if is_of(value, "integer"):
        if value < schema.get("minimum", value) or value > schema.get("maximum", value):
            yield f"{place}: {value} is out of range"
    if isinstance(value, str) and "pattern" in schema and not re.search(schema["pattern"], value):
        yield f"{place}: {value!r} doesn't match {schema['pattern']}"
    if isinstance(value, list) and "items" in schema:
        for index, item in enumerate(value):
            yield from faults(item, schema["items"], root, f"{place}[{index}]")
    if isinstance(value, dict):
        known = schema.get("properties", {})
        for name in schema.get("required", ()):
            if name not in value:
                yield f"{place}: has no {name}"
        for name, item in value.items():
            if name in known:
                yield from faults(item, known[name], root, f"{place}.{name}")
            elif schema.get("additionalProperties", True) is False:
                yield f"{place}: has {name}, which the schema hasn't"


# ---- the text of a value

def dash(text):
    return "-" if text is None else text


def yes(flag):
    return "yes" if flag else "no"


def result_line(r):
    end = r["end"]
    further = {
        "settled": "",
        "unsettled": " step {step} rounds {rounds}",
        "stream-full": " peering {peering} length {length}",
        "journal-full": " events {events}",
    }[end].format(**r)
    return f"result {end}{further}"


def path_text(path):
    parts = ["{" + ",".join(map(str, part)) + "}" if isinstance(part, list) else str(part) for part in path]
    return ",".join(parts) or "-"


def from_text(source):
    return source["kind"] if source["name"] is None else f"{source['kind']} {source['name']}"


def place_text(peering):
    return "moving" if peering["moving"] else f"at {dash(peering['at'])}"


def refusal_text(refusal):
    return refusal["reason"] if refusal["detail"] is None else f"{refusal['reason']}({refusal['detail']})"


def graft_line(g):
    end = f"refused {refusal_text(g['refusal'])}" if g["refusal"] else g["result"]
    return f"graft {g['graft']} {g['peering']} {dash(g['source'])} {g['target']} {end}"


def trace_line(t):
    further = "".join(f" {t[key]}" for key in ("peering", "prefix") if t[key] is not None)
    return f"trace {t['address']} from {t['from']} {t['ends']} {t['router']}{further}"


def check_lines(o):
    counts = o["counts"]
    yield f"ok routers {counts['routers']} peerings {counts['peerings']} steps {counts['steps']}"
    yield f"even {yes(o['even'])} sure {yes(o['sure'])}"


def run_lines(o):
    yield result_line(o["result"])
    for router in o["routers"]:
        yield f"router {router['name']}"
        for b in router["best"]:
            yield f"best {b['prefix']} {from_text(b['from'])} pref {b['pref']} path {path_text(b['path'])}"
    for p in o["peerings"]:
        yield f"peering {p['name']} {place_text(p)} state {p['state']} heard {p['heard']} told {p['told']}"
    yield from map(graft_line, o["grafts"])
    yield from map(trace_line, o["traces"])


def drill_lines(o):
    counts = o["counts"]
    yield result_line(o["result"])
    yield "routers {routers} peerings {peerings} prefixes {prefixes} grafts {grafts}".format(**counts)
    yield "accepted {accepted} refused {refused}".format(**counts)
    for p in o["peerings"]:
        yield f"peering {p['name']} {place_text(p)} heard {p['heard']} told {p['told']}"
    for r in o["routers"]:
        yield f"router {r['name']} best {r['best']}"


# ---- why

def candidate_text(c):
    first = f"own {yes(c['own'])} pref {c['pref']} path-length {c['path_length']} origin {c['origin']} neighbour {c['neighbour']} med {c['med']}"
    then = f"external {yes(c['external'])} cost {c['cost']} identifier {c['identifier']} address {c['address']}"
    return f"{from_text(c['from'])} {first} {then} path {path_text(c['path'])}"


def why_lines(o):
    if o["best"]:
        yield f"best {candidate_text(o['best'])}"
    for lost in o["lost"]:
        rule = lost["rule"]
        went = f"rule {rule['number']} {rule['name']}" if rule else "equal"
        yield f"lost {candidate_text(lost['candidate'])} {went}"
    for e in o["excluded"]:
        heard = f"peering {e['peering']} path {path_text(e['path'])}"
        if e["by"] == "loop":
            yield f"looped {heard} own AS in the path"
        else:
            yield f"denied {heard} rule {dash(e['rule'])} of {dash(e['policy'])}"


# ---- the timeline

def notice_text(n):
    name = "" if n["name"] is None else f" {n['name']}"
    data = f' "{n["text"]}"' if n["text"] is not None else f" data {n['data']}" if n["data"] else ""
    return f"{n['code']}/{n['subcode']}{name}{data}"


def message_text(m):
    if m is None:
        return ""
    if "fault" in m:
        return f"{m['type']} with fault {notice_text(m['fault'])}"
    if m["type"] == "OPEN":
        capabilities = "".join(f" capability {code}" for code in m["capabilities"])
        as4 = "" if m["as4"] is None else f" as4 {m['as4']}"
        return f"OPEN as {m['as']} hold {m['hold']} id {m['id']}{capabilities}{as4}"
    if m["type"] == "UPDATE":
        prefixes = "".join(f" {word} {' '.join(m[word])}" for word in ("withdraw", "announce") if m[word])
        return "UPDATE" + prefixes + ("" if m["path"] is None else f" path {path_text(m['path'])}")
    return f"NOTIFICATION {notice_text(m['notice'])}" if m["type"] == "NOTIFICATION" else m["type"]


def said_text(about):
    prefixes = "".join(f" {word} {' '.join(about[word])}" for word in ("announce", "withdraw") if about[word])
    octets = "" if about["octets"] is None else f" raw {about['octets']} octets"
    return f"said step[{about['step']}]{prefixes}{octets}"


def graft_event(what, a):
    reason = f" {refusal_text(a['refusal'])}" if a["refusal"] else ""
    peering, source, target = a["peering"], dash(a["source"]), a["target"]
    return {
        "ordered": f"ordered graft {a['graft']} {peering} from {source} to {target}",
        "admitted": f"admitted {peering} to {target}",
        "refused": f"refused {peering} to {target}{reason}",
        "froze": f"froze {peering}",
        "sent": f"sent {peering} to {target}",
        "landed": f"landed {peering} from {source}",
        "turned back": f"turned back {peering} to {source}{reason}",
        "took back": f"took back {peering} from {target}",
        "cleared": f"cleared {peering}",
        "confirmed": f"confirmed {peering} to {source}",
    }[what]


def event_line(e):
    what, about, start = e["event"], e["about"], f"round {e['round']}  {e['actor']}"
    if what in ("put", "got"):
        return f"{start} {'->' if what == 'put' else '<-'} {about['peering']}  {message_text(about['message'])}"
    if what == "stray":
        return f"{start}  stray segment of {about['peering']}"
    if what == "said":
        return f"{start}  {said_text(about)}"
    if what in ("lost", "repeated"):
        return f"{start}  link {what} a segment to {'home' if about['to'] == 'home' else 'the remote'}"
    if what == "began":
        return f"{start}  began group {about['group']}"
    return f"{start}  {graft_event(what, about)}"


def moved_lines(g):
    yield graft_line(g["graft"])
    spans = [("rounds to freeze", "to_freeze"), ("frozen", "frozen"), ("to landing", "to_landing")]
    counts = [("astray", "astray"), ("UPDATEs", "updates"), ("announced", "announced"), ("withdrawn", "withdrawn")]
    yield f"graft {g['graft']['graft']} " + " ".join(f"{word} {dash(g[key])}" for word, key in spans + counts)


def timeline_lines(o):
    yield result_line(o["result"])
    lines = [(e["round"], 0, event_line(e)) for e in o["events"]]
    for t in o["tables"]:
        lines.append((t["round"], 1, f"round {t['round']}  {t['router']}  decided {t['decided']} told {t['told']} heard {t['heard']}"))
    # events stand before tables in each round, and each of the two in its own order
    yield from (line for _, _, line in sorted(lines, key=lambda line: line[:2]))
    for g in o["grafts"]:
        yield from moved_lines(g)
    for s in o["sessions"]:
        opens = f"OPEN put {s['opens_put']} got {s['opens_got']}"
        yield f"session {s['name']}  {opens}  NOTIFICATION put {s['notifications_put']} got {s['notifications_got']}"
    total = o["total"]
    further = f"further OPENs {total['further_opens']}  NOTIFICATIONs {total['notifications']}"
    yield f"total  {further}  withdrawn from moved remotes {total['withdrawn_from_moved']}"


# ---- show

def attrs_text(a):
    med = "" if a["med"] is None else f" med {a['med']}"
    atomic = " atomic-aggregate" if a["atomic"] else ""
    speaker = a["aggregator"]
    aggregator = f" aggregator {speaker['as']} {speaker['address']}{partial(speaker)}" if speaker else ""
    unknown = "".join(f" attribute {u['type']} {u['octets'] or '-'}{partial(u)}" for u in a["unknown"])
    return f" path {path_text(a['path'])} next-hop {a['next_hop']} origin {a['origin']}{med}{atomic}{aggregator}{unknown}"


def partial(attribute):
    return " partial" if attribute["partial"] else ""


def import_lines(name, route):
    made = route["import"]
    if made is None:
        return
    start = f"{made['result']} {name} {route['prefix']}"
    if made["result"] == "accepted":
        yield f"{start} pref {made['pref']}{attrs_text(made['attrs'])}"
    elif made["result"] == "denied":
        yield f"{start} rule {dash(made['rule'])} of {dash(made['policy'])}"
    else:
        yield f"{start} own AS in the path"


def untold_text(u):
    if u["why"] == "its AS in the path":
        return f"its AS {u['as']} in the path"
    return f"denied by rule {dash(u['rule'])} of {dash(u['policy'])}" if u["why"] == "denied" else u["why"]


def closed_text(closed):
    if closed["how"] == "hold time expired":
        return f"hold time expired in round {closed['round']}"
    return f"{closed['how']} {notice_text(closed['notice'])}"


def peering_lines(p):
    name, session, routes = p["name"], p["session"], p["routes"]
    agreed = f"hold {dash(session['hold'])} as-octets {dash(session['as_octets'])}"
    yield f"peering {name} {place_text(p)} state {session['state']} {agreed}"
    ways = (f"{way} {session[way]['messages']} octets {session[way]['octets']}" for way in ("sent", "received"))
    yield f"messages {name} {' '.join(ways)}"
    if session["closed"]:
        yield f"closed {name} {closed_text(session['closed'])}"
    for route in routes["heard"]:
        yield f"heard {name} {route['prefix']}{attrs_text(route['attrs'])}"
        yield from import_lines(name, route)
    for route in routes["told"]:
        yield f"told {name} {route['prefix']}{attrs_text(route['attrs'])}"
    for u in routes["untold"]:
        yield f"untold {name} {u['prefix']} {untold_text(u)}"


def show_lines(o):
    yield result_line(o["result"])
    if o["waiting"] is not None:
        yield f"waiting: {o['waiting']}"
    for r in o["routers"]:
        yield f"router {r['name']} best {len(r['best'])}"
        for b in r["best"]:
            yield f"best {r['name']} {b['prefix']} {from_text(b['from'])} pref {b['pref']}{attrs_text(b['attrs'])}"
    for p in o["peerings"]:
        yield from peering_lines(p)
    for f in o["faults"]:
        yield f"fault {f['peering']} {f['way']} segment {f['segment']} {f['kind']} never came"


def test_lines(o):
    for number, e in enumerate(o["expectations"], 1):
        yield f"ok {number}" if e["ok"] else f"failed {number} wanted {e['key']} {e['wanted']} got {e['got']}"
    yield f"expectations {len(o['expectations'])} failed {o['failed']}"


LINES = {
    "check": check_lines,
    "run": run_lines,
    "drill": drill_lines,
    "show": show_lines,
    "test": test_lines,
    "timeline": timeline_lines,
    "why": why_lines,
}


# ---- the comparison

def compared(job, text, printed, schema):
    """What is wrong with the JSON of a job, of which this is the text."""
    if not printed.endswith("\n") or "\n" in printed[:-1]:
        return ["not one line"]
    try:
        value = json.loads(printed)
    except ValueError as why:
        return [f"no JSON: {why}"]
    found = list(faults(value, schema["$defs"][job], schema))
    if found:
        return found
    if printed != json.dumps(value, separators=(",", ":"), sort_keys=True, ensure_ascii=False) + "\n":
        found.append("not compact, or its members are not in rising order")
    if value["job"] != job:
        found.append(f"is of the job {value['job']}")
    wanted, got = text.splitlines(), list(LINES[job](value))
    found += [f"wanted {a!r}, got {b!r}" for a, b in zip(wanted, got) if a != b]
    if len(wanted) != len(got):
        found.append(f"wanted {len(wanted)} lines, got {len(got)}")
    return found


def call(program, words, data):
    done = subprocess.run([program, *words], input=data, capture_output=True)
    return done.stdout.decode(), done.returncode


def tried(program, words, data, schema):
    """Compares one job of a laboratory, as text and as JSON."""
    text, status = call(program, words, data)
    printed, other = call(program, [*words, "--json"], data)
    found = [] if status == other else [f"status {status} as text, {other} as JSON"]
    if status in (1, 2):
        return found + ([] if text == printed else ["a refusal that isn't the text"])
    return found + compared(words[0], text, printed, schema)


def jobs_of(program, data):
    """The jobs to try of a laboratory: of why, each prefix of its report at each of its routers."""
    yield ["check"]
    yield ["run", "--workers", "1"]
    yield ["show", "--workers", "1"]
    yield ["timeline", "--workers", "1"]
    yield ["test", "--workers", "1"]
    report = call(program, ["run", "--workers", "1"], data)[0].splitlines()
    routers = [line.split()[1] for line in report if line.startswith("router ")]
    for prefix in sorted({line.split()[1] for line in report if line.startswith("best ")}):
        for router in routers:
            yield ["why", router, prefix]


def main():
    program, labs = sys.argv[1], sys.argv[2:] or sorted((TOP / "examples").glob("*.toml"))
    schema = json.loads((TOP / "docs/report.schema.json").read_text())
    cases = [(str(lab), data, list(jobs_of(program, data))) for lab in labs for data in [pathlib.Path(lab).read_bytes()]]
    cases.append(("drills", b"", [["drill", str(n)] for n in (1, 2, 3)]))
    wrong = 0
    for name, data, jobs in cases:
        found = [f"{' '.join(words)}: {what}" for words in jobs for what in tried(program, words, data, schema)]
        print(f"{name}: {len(jobs)} jobs, {'as in the text' if not found else f'{len(found)} differences'}")
        for line in found[:20]:
            print(f"  {line}")
        wrong += len(found)
    sys.exit(1 if wrong else 0)


if __name__ == "__main__":
    main()
