"""What a hub does, from outside: the record of a fifodir that its publishers' replies make, and what the others may have seen
of it. The rules are those of docs/manual/requests.md. Each judgement returns what is wrong, or None."""

import re

# What each flag counts in a status's code.
UP, SETTLED, SUPERVISED, FAILED = 1, 2, 4, 8
FALLS = "sdD"


def code_after(code, letter):
    """The flags' code of a service after one more letter."""
    if letter in "suUdD":
        code = code & ~(UP | SETTLED) | (UP if letter in "uU" else 0) | (SETTLED if letter in "sUD" else 0)
    if letter in "sx":
        code = code & ~SUPERVISED | (SUPERVISED if letter == "s" else 0)
    if letter in "Osu":
        code = code & ~FAILED | (FAILED if letter == "O" else 0)
    return code


# What a `tell` publishes where a service's last letter but `O` is this one. Before any letter it is as behind `x`.
TELLS = {"up": {"x": "su", "s": "u", "D": "u", "d": "Du"}, "ready": {"x": "suU", "s": "uU", "D": "uU", "u": "U", "d": "DuU"},
         "down": {"x": "s", "u": "dD", "U": "dD", "d": "D"}, "failed": {"x": "sO", "s": "O", "D": "O", "u": "dDO", "U": "dDO", "d": "DO"},
         "off": {"s": "x", "D": "x", "u": "dDx", "U": "dDx", "d": "Dx"}}


def told(state, last, code):
    """What a `tell` of this state publishes, or a will: nothing if it holds already. `last` is the last letter but `O`."""
    if (state, last) == ("off", "x") and code & UP:
        return "sx"
    word = TELLS[state].get(last, "")
    return word.removesuffix("O") if last != "x" and code & FAILED else word


def is_met(want, code, reports):
    """Whether a service with this code is in the wanted state. What fell is not looked at here."""
    up, settled = bool(code & UP), bool(code & SETTLED)
    ready = up and (settled or not reports)
    return {"up": up, "restarted": up, "ready": ready, "restarted-ready": ready, "down": not up,
            "finished": not up and settled}[want]


class Record:
    """The letters of a fifodir from a number on, as its publishers' replies say. `codes` has the code at each number."""

    def __init__(self, base, code=0):
        self.base, self.first_code, self.letters, self.codes = base, code, "", [code]

    def end(self):
        return self.base + len(self.letters)

    def fill(self, messages, end):
        """Puts each message at its number. They have to fill all numbers up to the end, each once."""
        place = self.base
        parts = []
        for number, text in sorted(messages):
            if number != place:
                return f"a message is at {number}, and the one before it ends at {place}"
            parts.append(text)
            place += len(text)
        if place != end:
            return f"the messages end at {place}, and its status has {end}"
        self.letters = "".join(parts)
        return None

    def count_codes(self):
        """Finds the code at each number. (Only of services, which have few letters.)"""
        for letter in self.letters:
            self.codes.append(code_after(self.codes[-1], letter))

    def code_at(self, number):
        return self.codes[number - self.base]

    def has_stretch(self, before, after, letters):
        """Whether somebody who subscribed between these two numbers could get just these letters, one after the other."""
        first, last = before - self.base, after - self.base
        at = self.letters.find(letters[:64], first, last + 64)
        while 0 <= at <= last:
            if self.letters.startswith(letters, at):
                return None
            at = self.letters.find(letters[:64], at + 1, last + 64)
        return f"{len(letters)} letters, {letters[:20]}.., are no stretch from between {before} and {after}"

    def is_true_somewhere(self, before, after, holds):
        return any(holds(self.code_at(it)) for it in range(before, after + 1))


def hits_fault(pattern, hits):
    """Each hit ends with the first match in it."""
    for hit in hits:
        if not re.search(pattern, hit) or re.search(pattern, hit[:-1]):
            return f"{hit} is no least prefix with {pattern}"
    return None


def wait_fault(records, reports, wait):
    """What is wrong with a wait's reply: a yes names numbers at which each service was as wanted, and for a restart it fell
    before that; a never, one that had failed; a late, one that wasn't as wanted."""
    span, want, names, before, reply, after = wait
    word, *numbers = reply.split()
    spans = list(zip(names, before, after))

    def somewhere(holds):
        return [records[name].is_true_somewhere(first, last, lambda code, name=name: holds(code, reports[name]))
                for name, first, last in spans]

    if word == "yes":
        return yes_fault(records, reports, wait, numbers)
    quantifier = any if span == "all" else all
    if word == "never" and quantifier(somewhere(lambda code, _: code & FAILED)) and want not in ("down", "finished"):
        return None
    if word == "late" and (want.startswith("restarted")
                           or quantifier(somewhere(lambda code, reports: not is_met(want, code, reports)))):
        return None
    return f"{reply} to {wait}"


def yes_fault(records, reports, wait, numbers):
    span, want, names, before, reply, after = wait
    if len(numbers) != len(names) or (span == "all" and "-" in numbers) or set(numbers) == {"-"}:
        return f"{reply} has wrong numbers, to {wait}"
    for name, first, number, last in zip(names, before, numbers, after):
        if number == "-":
            continue
        record, at = records[name], int(number)
        if not first <= at <= last:
            return f"{name} wasn't at {at} during {wait}"
        if not is_met(want, record.code_at(at), reports[name]):
            return f"{name} at {at} has the code {record.code_at(at)}, to {wait}"
        heard = record.letters[first - record.base:at - record.base]
        if want.startswith("restarted") and not any(it in FALLS for it in heard):
            return f"{name} didn't fall among {heard}, to {wait}"
    return None
