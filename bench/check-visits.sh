#!/bin/sh
# Looks that the calls of lock_event and weighted_event whose visits are promised reach slots by counted calls alone.
#
# A call by `&self` can't count, so three calls of `Slots` reach a slot without counting: `node`, `contains` and
# `len`. A fourth, `waker_mut`, lends an entry's waker out, and counts nothing either. Each function of the crate that names one of them, or a function above that does, is listed below; a
# function that isn't listed, such as `mark_waiting`, `take_out` or `notify`, mustn't.
#
# Run it at the top of the repository: bench/check-visits.sh
set -eu

python3 - <<'PYTHON'
import re
import sys

FILES = {name: f"crates/lock_event/src/{name}.rt" for name in ("slots", "chain", "line", "event")}
FILES["weighted"] = "crates/weighted_event/src/weighted.rt"
# the uncounted calls of each layer: (file, function)
UNCOUNTED = {
    "slots": {"node", "contains", "len", "waker_mut"},
    "chain": {"at", "after", "entry", "contains", "len", "laws", "waker_mut"},
    "line": {"at", "entry", "contains", "len", "laws", "next_waker", "waker_mut"},
}
# what a list may do without counting: look at one entry by its id, look at a place, search for a waker, rank all entries
ALLOWED = {
    "event": {"len", "is_empty", "entry", "in_order", "contains", "is_notified", "is_waiting", "waker_mut", "poll_entry", "ask", "next_waker", "withdraw", "notify", "notify_additional"},
    "weighted": {"len", "entry", "contains", "is_notified", "is_laden", "waker_mut", "poll_entry", "ask", "next_waker", "withdraw", "fit", "remove", "find", "take_waker", "search", "bring_in", "settle", "reserve"},
}
# of these the calls that promise their visits may use the ones that reach no slot
HARMLESS = {"laws", "len", "contains"}
BELOW = {"chain": "slots", "line": "chain", "event": "line", "weighted": "chain"}
PROMISED = {"leave", "withdraw", "notify", "notify_additional", "remove", "mark_waiting", "take_out", "pass_on", "lead", "trail"}


def functions(text):
    """Yields the name and the body of each function."""
    starts = [(m.start(), m.group(1)) for m in re.finditer(r"^\s*(?:pub(?:\(crate\))? )?fn (\w+)", text, re.M)]
    for (start, name), (end, _) in zip(starts, starts[1:] + [(len(text), "")]):
        body = text[start:end]
        yield name, body[body.find("\n    {") if "\n    {" in body else body.find("\n{") :]


wrong = []
for file, path in list(FILES.items())[1:]:
    text = open(path).read()
    below = UNCOUNTED[BELOW[file]]
    for name, body in functions(text):
        used = {call for call in re.findall(r"(?:slots|chain|line)\s*\.(\w+)\(", body) if call in below}
        if name in PROMISED:
            used -= HARMLESS
        elif name in UNCOUNTED.get(file, ALLOWED.get(file, set())):
            continue
        if file == "line" and name in {"push_back", "set_waker"}:
            used -= HARMLESS
        if used:
            wrong.append(f"{file}.rt: {name} uses {', '.join(sorted(used))}")
for row in wrong:
    print(row, file=sys.stderr)
if not wrong:
    print("leave, withdraw, notify, notify_additional and remove reach slots by counted calls alone")
sys.exit(1 if wrong else 0)
PYTHON
