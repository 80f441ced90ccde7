"""Numbers of a service in the text form that Prometheus reads."""

import time
from typing import Iterable, List, NamedTuple, Optional, Sequence, Tuple

from . import life

COUNTER, GAUGE = "counter", "gauge"
STATES = ("starting", "ready", "read-only", "convicted", "stopping")
METHODS = ("GET", "PUT", "POST", "DELETE")


class Metric(NamedTuple):
    """A family of numbers: its name, whether it only grows, what it says, and of each its labels and its value."""

    name: str
    kind: str
    says: str
    values: Sequence[Tuple[dict, float]]


def one(name: str, kind: str, says: str, value: float) -> Metric:
    """A family of one number, without labels."""
    return Metric(name, kind, says, [({}, value)])


def escaped(text: str) -> str:
    """A label's value as it stands between quotes."""
    return text.replace("\\", "\\\\").replace('"', '\\"').replace("\n", "\\n")


def number_text(value: float) -> str:
    """A number: whole ones without a point."""
    return "%d" % value if value == int(value) else "%.6f" % value


def lines_of(metric: Metric) -> List[str]:
    """The lines of a family."""
    found = ["# HELP %s %s" % (metric.name, metric.says), "# TYPE %s %s" % (metric.name, metric.kind)]
    for labels, value in metric.values:
        words = ",".join('%s="%s"' % (name, escaped(str(it))) for name, it in sorted(labels.items()))
        found.append("%s%s %s" % (metric.name, "{%s}" % words if words else "", number_text(value)))
    return found


def life_metrics(status) -> List[Metric]:
    """What a node's status says: how much is used, how much there is, and who is convicted."""
    parts = life.parts_of(status)
    named = [(it.name.replace(" ", "_"), it) for it in parts]
    return [
        Metric("depot_used", GAUGE, "What is used of what the node has only so much of.", [({"of": name}, it.used) for name, it in named]),
        Metric("depot_limit", GAUGE, "How much there is of it.", [({"of": name}, it.most) for name, it in named]),
        one("depot_statements_left", GAUGE, "Statements that the node's key can still sign.", status.left()),
        one("depot_updates", GAUGE, "Accepted updates, own and of others.", status.updates),
        one("depot_convicted_members", GAUGE, "Members that the node has a proof against.", len(status.convicted)),
        Metric("depot_convicted", GAUGE, "1 for each convicted member.", [({"member": it}, 1) for it in status.convicted]),
    ]


def state_metric(state: str) -> Metric:
    """The state as a family of ones and zeros."""
    return Metric("depot_state", GAUGE, "1 for the state that the service is in.", [({"state": it}, int(it == state)) for it in STATES])


def http_metric(counts: dict) -> Metric:
    """Answers over HTTP, by method and status."""
    values = [({"method": method, "code": code}, count) for (method, code), count in sorted(counts.items())]
    return Metric("depot_http_answers_total", COUNTER, "Answers to local programs.", values)


def text_of(status, state: str, http_counts: dict, samples: Iterable[Metric]) -> str:
    """All families as text."""
    metrics = life_metrics(status) + [state_metric(state), http_metric(http_counts)] + list(samples)
    return "".join(line + "\n" for it in metrics for line in lines_of(it))


# ---- of the service


def since(at: float, now: float) -> float:
    """How many seconds ago something was; -1 where it never was."""
    return max(0.0, now - at) if at else -1.0


def peers_shown(rounds) -> dict:
    """What is known of each other member, by its number."""
    if rounds is None:
        return {}
    now = time.time()
    return {
        str(node): {
            "in_step_seconds_ago": round(since(it.in_step_at, now), 1), "why": it.why, "convicted": it.is_convicted, "rounds": it.rounds,
            "pushes": it.pushes, "answered": it.answered, "fails": it.fails,
        }
        for node, it in sorted(rounds.peers.items())
    }


def carrier_shown(carrier) -> Optional[dict]:
    """What is known of the folder and of each other member by its hellos there; None without a carrier."""
    if carrier is None:
        return None
    now = time.time()
    ago = {str(node): {"in_step_seconds_ago": round(since(it.in_step_at, now), 1)} for node, it in sorted(carrier.members.items())}
    return {"why": carrier.why, "members": ago}


def carrier_metrics(carrier) -> List[Metric]:
    """How other members do by their hellos in the folder, and whether that can be used."""
    shown = carrier_shown(carrier)
    if shown is None:
        return []
    ago = [({"member": node}, it["in_step_seconds_ago"]) for node, it in shown["members"].items()]
    return [
        one("depot_carrier_usable", GAUGE, "1 where the folder could be used at the last look.", int(not shown["why"])),
        Metric("depot_carrier_in_step_seconds", GAUGE, "Seconds since a member's hello there had all; -1 where it never had.", ago),
    ]


def bucket_metrics(service) -> List[Metric]:
    """How many leaves may go to others now."""
    buckets = {"vouchers": service.serving.vouchers, "receipts": service.receipts}
    return [Metric("depot_leaves_for_others", GAUGE, "Leaves that may go to others now.", [({"for": it}, buckets[it].left()) for it in sorted(buckets)])]


def node_metrics(node) -> List[Metric]:
    """How the program that runs the node does."""
    kinds = sorted(node.counts)
    return [
        Metric("depot_requests_total", COUNTER, "Requests that the node answered.", [({"kind": it}, node.counts[it]) for it in kinds]),
        Metric("depot_request_seconds_total", COUNTER, "How long they took.", [({"kind": it}, node.seconds[it]) for it in kinds]),
        one("depot_queue", GAUGE, "Requests that wait for their turn.", node.waiting()),
        one("depot_puts_total", COUNTER, "Updates that this run of the node put.", node.counts["put"]),
    ]


def peer_metrics(rounds) -> List[Metric]:
    """How other members do: a family a field."""
    shown = peers_shown(rounds)

    def family(name, kind, says, field):
        return Metric("depot_peer_" + name, kind, says, [({"member": node}, float(it[field])) for node, it in shown.items()])

    return [
        family("in_step_seconds", GAUGE, "Seconds since both had the same; -1 where they never had.", "in_step_seconds_ago"),
        family("convicted", GAUGE, "1 where the member is convicted.", "convicted"),
        family("rounds_total", COUNTER, "Rounds that went well.", "rounds"),
        family("pushes_total", COUNTER, "Pushes that went well.", "pushes"),
        family("answered_total", COUNTER, "Exchanges that the member began.", "answered"),
        family("fails_total", COUNTER, "Exchanges that failed.", "fails"),
    ]


REFUSED = "refused_"
WIRE = {"wire_in_bytes": "in", "wire_out_bytes": "out"}


def count_metrics(counts) -> List[Metric]:
    """What was counted: refusals by their check, bytes on the wire, and all else by its name."""
    checks = {name[len(REFUSED) :]: value for name, value in counts.items() if name.startswith(REFUSED)}
    events = {name: value for name, value in counts.items() if name not in WIRE and not name.startswith(REFUSED)}
    return [
        Metric("depot_refused_frames_total", COUNTER, "Frames that were refused.", [({"check": it}, checks[it]) for it in sorted(checks)]),
        Metric("depot_wire_bytes_total", COUNTER, "Bytes of messages between members.", [({"way": WIRE[it]}, counts[it]) for it in sorted(WIRE)]),
        Metric("depot_events_total", COUNTER, "What happened so often.", [({"what": it}, events[it]) for it in sorted(events)]),
    ]


def samples_of(service) -> List[Metric]:
    """All that isn't the node's own status."""
    shown = peer_metrics(service.rounds) + carrier_metrics(service.carrier)
    return node_metrics(service.node) + bucket_metrics(service) + shown + count_metrics(service.counts)
