"""Faults that are planted into what the clients saw. The judge has to see each. On a machine that is so busy that there is nothing to
plant them in, it says so."""

from collections import Counter

from soaks.clients import REPORTS
from soaks.model import Record, is_met, wait_fault


def wrong_letters(letters):
    """The letters with a fault in their middle, where two differ, by the fault's name."""
    at = next((it for it in range(len(letters) // 2, len(letters) - 1) if letters[it] != letters[it + 1]), None)
    if at is None:
        return {}
    first, second = letters[at], letters[at + 1]
    return {"a letter that is lost": letters[:at] + letters[at + 1:], "a letter that comes twice": letters[:at] + first + letters[at:],
            "letters in another order": letters[:at] + second + first + letters[at + 2:]}


def check_takes(report, records, logs):
    stretches = [it for log in logs for it in log.stretches] or [("p0", 0, 0, "")]
    name, before, after, letters = max(stretches, key=lambda it: len(it[3]))
    wrong_ones = wrong_letters(letters)
    if not wrong_ones:
        print("soak: too few letters were taken to plant a fault in them")
        return
    report.same("load, planted: a stretch", records[name].has_stretch(before, after, letters), None)
    for what, wrong in wrong_ones.items():
        report.same(f"load, planted: {what} is seen", records[name].has_stretch(before, after, wrong) is not None, True)
    missed = records[name].has_stretch(before, after, letters[after - before + 1:])
    report.same("load, planted: a stretch that begins too late is seen", missed is not None, True)


def check_messages(report, logs):
    messages = sorted(it for log in logs for it in log.messages["p0"])
    if not messages:
        print("soak: too few messages were published to plant a fault in them")
        return
    base, (last, text), (number, _) = messages[0][0], messages[-1], messages[len(messages) // 2]
    end = last + len(text)
    report.same("load, planted: messages", Record(base).fill(messages, end), None)
    rest = [it for it in messages if it[0] != number]
    for what, wrong, until in (("a message that is lost", rest, end), ("a number that is given twice", [*messages, (number, "x")], end),
                               ("a wrong number", [*rest, (number + 1, "x")], end), ("a wrong status", messages, end + 1)):
        report.same(f"load, planted: {what} is seen", Record(base).fill(wrong, until) is not None, True)


def wrong_numbers(records, name, want, before, after):
    """Numbers that no `yes` to this wait may have: one from before it, and those at which the service wasn't as wanted."""
    record = records[name]
    return {"too early": [before - 1], "not as wanted": [
        it for it in range(before, after + 1) if not is_met(want, record.code_at(it), REPORTS[name])]}


def check_waits(report, records, logs):
    tried, unseen = Counter(), []
    for span, want, names, before, reply, after in (it for log in logs for it in log.waits):
        if len(names) != 1 or not reply.startswith("yes "):
            continue
        for what, numbers in wrong_numbers(records, names[0], want, before[0], after[0]).items():
            for number in numbers:
                wrong = (span, want, names, before, f"yes {number}", after)
                tried[what] += 1
                if wait_fault(records, REPORTS, wrong) is None:
                    unseen.append(wrong)
    report.same("load, planted: a wrong yes is seen", unseen, [])
    print(f"soak: wrong replies of waits that were planted: {dict(tried)}", flush=True)


def check(report, records, logs):
    check_takes(report, records, logs)
    check_messages(report, logs)
    check_waits(report, records, logs)
