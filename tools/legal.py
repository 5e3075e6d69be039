"""What a legal report of a script is: a slow second reading, in another language, of what docs/GUARANTEES.md says.

It plays the placed writes of each round in the order of their places on a plain map, and looks at each answer at its
place. Of a round that a crash ends it plays behind them the writes that are reported found, and looks whether each that
was cut off is found or lost as the map has it then. tools/check-report and the checks that draw scripts stand on it.
"""
import re

NAME = r"[!-~]{1,24}"
NUMBER = r"0|[1-9][0-9]{0,19}"
PLACED = re.compile(rf"(none|{NUMBER}) @({NUMBER})")
SPENT = re.compile(rf"spent ({NUMBER})")
PARTS = re.compile(rf"({NUMBER}) parts( cut)?")
CUT = re.compile(rf"cut(?: (found|lost)| @({NUMBER}))?")
PART = re.compile(rf"part ({NAME}) (?:to ({NAME})|end) @({NUMBER})((?: {NAME} (?:{NUMBER}))*)")
LAST = re.compile(rf"(join|crash) ({NUMBER}) names ({NUMBER})")

# What may become of a call, in a word each.
ENDINGS = ["answered", "placed", "found", "lost", "read", "unstarted"]


class Illegal(Exception):
    """Why a report is no legal one."""


def holds(test, why):
    if not test:
        raise Illegal(why)


def rounds_of(script):
    """The rounds of a script: of each its calls as (caller, words), in the order of the script, its limit, and, where a
    crash ends it, the budgets of the callers, else None."""
    rounds, calls, limit, ended = [], [], 1 << 62, False
    for line in script.split("\n"):
        words = line.split()
        if not words or words[0].startswith("#") or words[0] == "updater":
            continue
        if words[0] == "limit":
            limit = int(words[1])
        elif words[0] in ("join", "crash"):
            budgets = [int(word) for word in words[2:-1]] if words[0] == "crash" else None
            rounds.append((calls, limit, budgets))
            calls, ended = [], True
        else:
            number = [str(int(words[3]))] if len(words) > 3 else []
            calls.append((int(words[0]), words[1:3] + number))
    if calls or not ended:
        rounds.append((calls, limit, None))
    return rounds


class Call:
    """A call of a round, its answer, and its places (first, last) where it has any. The lines left come last first."""

    def __init__(self, caller, words, lines):
        self.caller, self.verb, self.name = caller, words[0], words[1].encode()
        self.number = int(words[2]) if len(words) > 2 else None
        head = f"{caller} {' '.join(words)} -> "
        line = lines.pop() if lines else "nothing"
        holds(line.startswith(head), f"'{line}' doesn't answer '{head.strip()}'")
        self.text = line
        self.places, self.old, self.parts, self.is_cut, self.mark = None, None, [], False, None
        self.read(line[len(head) :], lines)

    def read(self, answer, lines):
        placed, spent, parts, cut = (form.fullmatch(answer) for form in (PLACED, SPENT, PARTS, CUT))
        self.is_unstarted = answer == "unstarted"
        is_write = self.verb in ("put", "del")
        if self.is_unstarted:
            pass
        elif self.verb == "scan":
            holds(parts, f"'{self.text}' is no scan's answer")
            self.parts = [part_of(lines.pop() if lines else "nothing") for _ in range(int(parts[1]))]
            self.is_cut = bool(parts[2])
            holds(self.parts or self.is_cut, f"'{self.text}' has no part")
            self.places = (self.parts[0][2], self.parts[-1][2]) if self.parts else None
        elif placed:
            self.old = None if placed[1] == "none" else int(placed[1])
            place = int(placed[2])
            self.places = (place, place + (self.verb != "get"))
        elif spent:
            holds(self.verb != "get", f"'{self.text}' can't be spent")
            self.places = (int(spent[1]), int(spent[1]))
        elif cut:
            self.is_cut, self.mark = True, cut[1]
            holds(is_write == (answer != "cut"), f"'{self.text}' is cut off as another call")
            self.places = (int(cut[2]), int(cut[2]) + 1) if cut[2] else None
        else:
            holds(self.verb == "put" and answer == "full", f"'{self.text}' has no answer of its call")
        self.is_spent, self.is_full = bool(spent), answer == "full"
        self.writes = is_write and not spent and self.places is not None

    def ending(self):
        """What became of the call, one of `ENDINGS`."""
        if self.is_unstarted or not self.is_cut:
            return "unstarted" if self.is_unstarted else "answered"
        return self.mark or ("placed" if self.writes else "read")


def part_of(line):
    """A part of a scan: its bounds, its place and its pairs."""
    part = PART.fullmatch(line)
    holds(part, f"'{line}' is no part")
    words = part[4].split()
    pairs = [(name.encode(), int(value)) for name, value in zip(words[::2], words[1::2])]
    return part[1].encode(), part[2] and part[2].encode(), int(part[3]), pairs


def check_order(calls, count):
    """No call ends behind the round's last write, and the calls of one caller come one after another."""
    ends = {}
    for call in calls:
        if call.places:
            first, last = call.places
            holds(last <= count, f"'{call.text}' is behind the last write")
            holds(ends.get(call.caller, 0) <= first, f"'{call.text}' is before an earlier call of its caller")
            ends[call.caller] = last


def check_limit(calls, limit):
    """A call is spent only once the limit is reached, and each caller but one may be past it by one write."""
    callers = len({call.caller for call in calls})
    for call in calls:
        holds(not call.is_spent or call.places[0] >= limit, f"'{call.text}' is below the limit")
        holds(not call.writes or call.places[0] < limit + callers - 1, f"'{call.text}' is past the limit")


def check_parts(call):
    """The parts of a scan join, come one after another, and end where the count is reached or no name is left."""
    low, left, place = call.name, call.number, 0
    for at, (part_low, high, part_place, pairs) in enumerate(call.parts):
        holds(part_low == low and (high is None or low < high), f"'{call.text}': part {at} begins elsewhere")
        holds(place <= part_place, f"'{call.text}': part {at} is before the one before it")
        left -= len(pairs)
        is_last = at + 1 == len(call.parts) and not call.is_cut
        holds(is_last == (left == 0 or high is None), f"'{call.text}': part {at} isn't the last one, or is")
        low, place = high, part_place


def look_at_part(call, at, names):
    """The part lists the first names of its range, as many as the parts before it left of the count."""
    low, high, _, pairs = call.parts[at]
    left = call.number - sum(len(part[3]) for part in call.parts[:at])
    within = sorted(name for name in names if low <= name and (high is None or name < high))
    holds(pairs == [(name, names[name]) for name in within[:left]], f"'{call.text}': part {at} lists other names")


def look(call, at, names):
    """The answer of a call, or of this part of it, is the one of this map."""
    if call.verb == "scan":
        look_at_part(call, at, names)
    else:
        holds(call.old == names.get(call.name), f"'{call.text}': the name had another number")


def looks_of(calls):
    """Which answers are to be looked at at each place: those of gets, those of writes and parts of scans."""
    looks = {}
    for call in calls:
        is_told = call.places and not call.is_spent and not call.is_cut
        places = [part[2] for part in call.parts] or (call.places[:1] if is_told else [])
        for at, place in enumerate(places):
            looks.setdefault(place, []).append((call, at))
    return looks


def play(calls, base):
    """The map behind the placed writes, and how many these are; each answer is looked at on the way."""
    writes = sorted((call for call in calls if call.writes), key=lambda call: call.places)
    holds([call.places[0] for call in writes] == list(range(len(writes))), "the places of writes aren't 0, 1, 2 ..")
    looks, names = looks_of(calls), dict(base)
    for place in range(len(writes) + 1):
        for call, at in looks.get(place, []):
            look(call, at, names)
        if place < len(writes):
            write = writes[place]
            if write.verb == "put":
                names[write.name] = write.number
            else:
                names.pop(write.name, None)
    return names, len(writes)


def check_stops(calls, budgets):
    """Behind a call that was cut off, or didn't begin, none of its caller begins; without a budget none does, and with
    one the first does. In a round that is joined each call is answered."""
    stopped = {}
    for call in calls:
        is_first, is_stopped = call.caller not in stopped, stopped.get(call.caller, False)
        holds(budgets or not (call.is_cut or call.is_unstarted), f"'{call.text}' isn't answered")
        holds(call.is_unstarted or not is_stopped, f"'{call.text}' begins behind one that isn't answered")
        if budgets and is_first:
            holds(call.is_unstarted == (budgets[call.caller] == 0), f"'{call.text}' begins, or not, against its budget")
        stopped[call.caller] = call.is_cut or call.is_unstarted


def settle(calls, names):
    """Makes the writes that are found, and looks whether each that was cut off without a place is what it is told."""
    for call in calls:
        if call.mark == "found" and call.verb == "put":
            names[call.name] = call.number
        elif call.mark == "found":
            names.pop(call.name, None)
    for call in calls:
        if call.mark:
            is_found = names.get(call.name) == (call.number if call.verb == "put" else None)
            holds(is_found == (call.mark == "found"), f"'{call.text}': the map says otherwise")


def check_round(asked, limit, budgets, lines, base):
    """Looks at one round, and gives its calls with their answers and the map at its end."""
    calls = [Call(caller, words, lines) for caller, words in sorted(asked, key=lambda call: call[0])]
    check_stops(calls, budgets)
    names, count = play(calls, base)
    settle(calls, names)
    check_order(calls, count)
    check_limit(calls, limit)
    for call in calls:
        if call.verb == "scan":
            check_parts(call)
    line = lines.pop() if lines else "nothing"
    last = LAST.fullmatch(line)
    holds(last and (last[1] == "crash") == (budgets is not None), f"'{line}' doesn't end this round")
    holds((int(last[2]), int(last[3])) == (count, len(names)), f"'{line}' has other numbers")
    return calls, names


def check_report(layout, script, report):
    """The rounds of the report, each as its calls with their answers and the map at its end. Raises `Illegal` where it
    isn't one of the script on this layout: nodes, slots and callers."""
    nodes, slots, callers = layout
    holds(report.endswith("\n"), "the report doesn't end with a line")
    lines, names, added, rounds = report[:-1].split("\n")[::-1], {}, 0, []
    for number, (asked, limit, budgets) in enumerate(rounds_of(script)):
        try:
            holds(all(caller < callers for caller, _ in asked), "a caller that the layout doesn't have")
            calls, names = check_round(asked, limit, budgets, lines, names)
            rounds.append((calls, names))
            added += sum(call.verb == "put" and (call.is_cut or (call.writes and call.old is None)) for call in calls)
            # A full answer is paid for: each node weighs half of its slots, and one had a name in each.
            paid = nodes * (slots // 2) <= slots // 2 + added and slots <= added
            holds(paid or not any(call.is_full for call in calls), "a full answer that no puts have paid for")
        except Illegal as why:
            raise Illegal(f"round {number}: {why}") from None
    holds(not lines, "lines behind the last round")
    return rounds
