"""What a laboratory is given, for a replay of its journal: the values of an accepted input (docs/INPUT.md), with defaults filled in and
names as numbers, what its remotes say, and the groups of its script."""
import collections
import struct
import tomllib

from audit_routes import Attributes, Rule, message, min_as, said_update
from bgp_reader import KEEPALIVE, OPEN, SEQUENCE

ORIGINS = {"igp": 0, "egp": 1, "incomplete": 2}
SAYS = ("announce", "withdraw", "raw")
COST = 1

Router = collections.namedtuple("Router", "name identifier room networks policies")
Peering = collections.namedtuple(
    "Peering",
    "number name start remote_as remote_address local_address import_name export_name home_hold offers beat opening open_octets wide_says",
)
Step = collections.namedtuple("Step", "do peering octets target")
Graft = collections.namedtuple("Graft", "number step peering target")


def address_of(text):
    return int.from_bytes(bytes(map(int, text.split("."))), "big")


def prefix_of(text):
    """A prefix as an address, with the bits past the length cleared, and a length."""
    address, length = text.split("/")
    clear = 32 - int(length)
    return address_of(address) >> clear << clear, int(length)


def rule_of(table):
    """A rule of a policy."""
    address = length = least = most = None
    if "prefix" in table:
        address, length = prefix_of(table["prefix"])
        least = table.get("ge", length)
        most = table.get("le", 32 if "ge" in table else length)
    origin = ORIGINS[table["origin"]] if "origin" in table else None
    values = table.get("deny", False), table.get("pref"), table.get("med"), table.get("prepend", 0)
    return Rule(address, length, least, most, table.get("has_as"), origin, *values)


def router_of(table):
    policies = {policy["name"]: [rule_of(rule) for rule in policy.get("rule", [])] for policy in table.get("policy", [])}
    return Router(table["name"], address_of(table["id"]), table["sessions"], [prefix_of(text) for text in table.get("networks", [])], policies)


def default_opening(table):
    """The OPEN of a remote's own values, and a KEEPALIVE."""
    four = table.get("remote_as4", table.get("as4", False))
    capability = struct.pack(">BBBBI", 2, 6, 65, 4, table["remote_as"]) if four else b""
    body = bytes([4]) + min_as(table["remote_as"], 2) + struct.pack(">H", table.get("hold", 180))
    body += address_of(table.get("remote_id", table["remote_address"])).to_bytes(4, "big") + bytes([len(capability)]) + capability
    return message(OPEN, body) + message(KEEPALIVE)


def beat_of(table, says_raw):
    """After how many rounds the remote says a KEEPALIVE by its timer; 0 where it has none."""
    both = table.get("home_hold", 0), table.get("hold", 180)
    beats = table.get("beats", min(both) > 0 and "opening" not in table and not says_raw)
    return min(both) // 3 if beats else 0


class Setup:
    """An input: its routers, costs and peerings, its steps, and the steps and grafts of each group."""

    def __init__(self, document):
        table = tomllib.loads(document.decode())
        self.home_as = table["home_as"]
        self.routers = [router_of(router) for router in table["router"]]
        numbers = {router.name: number for number, router in enumerate(self.routers)}
        self.costs = {(numbers[cost["from"]], numbers[cost["to"]]): cost["cost"] for cost in table.get("cost", [])}
        steps = table.get("step", [])
        raw = {step["peering"] for step in steps if step["do"] == "raw"}
        self.peerings = [self.peering_of(number, it, numbers, it["name"] in raw) for number, it in enumerate(table.get("peering", []))]
        named = {peering.name: peering.number for peering in self.peerings}
        self.steps = [self.step_of(step, named, numbers) for step in steps]
        self.groups = self.cut_groups()
        self.grafts = self.number_grafts()

    @staticmethod
    def peering_of(number, table, routers, says_raw):
        offers = table.get("as4", False)
        opening = bytes.fromhex(table["opening"]) if "opening" in table else default_opening(table)
        return Peering(
            number,
            table["name"],
            routers[table["at"]],
            table["remote_as"],
            address_of(table["remote_address"]),
            address_of(table["local_address"]),
            table.get("import"),
            table.get("export"),
            table.get("home_hold", 0),
            offers,
            beat_of(table, says_raw),
            opening,
            29 + 8 * offers + 8 * table.get("unicast", False),
            offers and table.get("remote_as4", offers),
        )

    def step_of(self, table, peerings, routers):
        """A step, with the octets that it has a remote say."""
        peering = peerings.get(table.get("peering"))
        octets = self.said_by(table, self.peerings[peering]) if table["do"] in SAYS else None
        target = table.get("to", table.get("router"))
        return Step(table["do"], peering, octets, routers.get(target))

    @staticmethod
    def said_by(table, peering):
        """The octets that a remote says by a step."""
        if table["do"] == "raw":
            return bytes.fromhex(table["hex"])
        prefixes = list(dict.fromkeys(map(prefix_of, table["prefixes"])))
        if table["do"] == "withdraw":
            return said_update(prefixes, None, [], peering.wide_says)
        path = table.get("path", [peering.remote_as])
        next_hop = address_of(table["next_hop"]) if "next_hop" in table else peering.remote_address
        parts = ((SEQUENCE, tuple(path)),) if path else ()
        attributes = Attributes(ORIGINS[table.get("origin", "igp")], parts, next_hop, table.get("med"), False, None, ())
        return said_update([], attributes, prefixes, peering.wide_says)

    def cut_groups(self):
        """The numbers of the steps of each group, without its settle."""
        groups = [[]]
        for number, step in enumerate(self.steps):
            if step.do == "settle":
                groups.append([])
            else:
                groups[-1].append(number)
        if self.steps and self.steps[-1].do == "settle":
            groups.pop()
        return groups

    def number_grafts(self):
        """The grafts that the script may make, by number: a graft step takes one number, an evacuate step one for each peering."""
        grafts, number = {}, 1
        for place, step in enumerate(self.steps):
            if step.do == "graft":
                grafts[number] = Graft(number, place, step.peering, step.target)
                number += 1
            elif step.do == "evacuate":
                for peering in self.peerings:
                    grafts[number + peering.number] = Graft(number + peering.number, place, peering.number, None)
                number += len(self.peerings)
        return grafts

    def cost(self, near, far):
        """The interior cost between two routers."""
        return self.costs.get((near, far), COST)
