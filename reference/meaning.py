"""What crates/meaning prints, worked out from the rules alone: every choice of events is tried."""
import re

T = 4294967295
B, D, M = "BATT", "DROP", "MISS"
SAMPLES = [
    ("falling readings", "BATT+", "B+", None, [(B, 50, 10), (B, 40, 20), (B, 45, 30)]),
    ("a level twice", "BATT+", "B+", None, [(B, 50, 10), (B, 40, 20), (B, 45, 30), (B, 45, 40)]),
    ("two at one time", "BATT+", "B+", T, [(B, 50, 10), (B, 40, 10), (B, 45, 20)]),
    ("a repeat in a repeat", "SEQ(DROP,MISS+)+", "(DM+)+", T, [(D, 0, 1), (M, 0, 2), (D, 0, 3), (M, 0, 4)]),
    ("no event", "BATT+", "B+", None, []),
]


def follows(earlier, later, gap):
    if later[2] <= earlier[2]:
        return False
    return later[1] < earlier[1] if gap is None else later[2] - earlier[2] <= gap


def is_trend(events, word, gap):
    inside = all(0 <= e[2] < 100 for e in events)
    return inside and re.fullmatch(word, "".join(e[0][0] for e in events)) and all(
        follows(e, f, gap) for e, f in zip(events, events[1:]))


def shown(events):
    return "".join(f" {kind}/{level}@{time}" for kind, level, time in events)


for title, text, word, gap, events in SAMPLES:
    print(f"{title}: {text} with " + ("falling levels" if gap is None else f"gaps up to {gap}"))
    print("    events" + shown(events))
    choices = [[e for i, e in enumerate(events) if n >> i & 1] for n in range(2 ** len(events))]
    trends = [c for c in choices if is_trend(c, word, gap)]
    for trend in trends:
        print("    trend" + shown(trend))
    loads = [len(trend) for trend in trends]  # each load is 1
    least = min(loads, default=T)
    print(f"    count {len(trends)}")
    print(f"    least {least}")
    print(f"    least {least} in {loads.count(least)} ways")
    print(f"    most {max(loads) if loads else 'nothing'}")
