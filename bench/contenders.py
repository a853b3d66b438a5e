"""Runs what is compared, in turns, and puts its row into the table."""

import pathlib
import subprocess

from programs import Failed, Missing, say
from table import asked_as


def run(words):
    """The words that a load generator prints."""
    done = subprocess.run([str(word) for word in words], stdout=subprocess.PIPE, text=True)
    if done.returncode != 0:
        failed = [pathlib.Path(words[0]).name, *words[1:3]]
        raise Failed(f"a run failed, and said why: {' '.join(str(word) for word in failed)} ..")
    return done.stdout.split()


def repeated(rounds, contenders):
    """All results of each contender. Each round has every contender once, and each begins in its turn."""
    names = list(contenders)
    results = {name: [] for name in names}
    for place in range(rounds):
        turn = place % len(names)
        for name in names[turn:] + names[:turn]:
            results[name].append(contenders[name]())
    return results


def best_rates(rounds, contenders):
    results = repeated(rounds, contenders)
    return {name: max(float(words[0]) for words in runs) for name, runs in results.items()}


def compare(table, rounds, asked, contenders):
    """Rates of the contenders that are there, the first of which is ours, and a row for each other one. `asked` has
    what is said of such a one, and the least ratio that was asked, or None."""
    there, lacking, rates = {}, {}, {}
    for name, words in contenders.items():
        try:
            there[name] = words()
        except Missing as why:
            lacking[name] = why
    ours = next(iter(contenders))
    if ours in there and len(there) > 1:
        try:
            rates = best_rates(rounds, {name: lambda words=words: run(words) for name, words in there.items()})
        except Failed as why:
            lacking[ours] = why
    for name, (what, least) in asked.items():
        if name in rates:
            table.add_rate(what, least, rates[ours], rates[name], (ours, name))
        else:
            table.lack_ratio(what, asked_as(">= {:.2f}", least), lacking.get(ours) or lacking.get(name))


def compare_delays(table, rounds, what, most, contenders):
    """Delays of two contenders, the first of which is ours, and their row."""
    say(what)
    names = list(contenders)
    try:
        words = {name: words() for name, words in contenders.items()}
        results = repeated(rounds, {name: lambda words=words: run(words) for name, words in words.items()})
    except Missing as why:
        table.lack_ratio(what, f"<= {most:.2f}", why)
        return
    # (each is a median and a 99th percentile in microseconds)
    best = {name: min([float(it) for it in words] for words in results[name]) for name in names}
    figures = ", ".join(f"{name} {it[0]:,.0f} us (p99 {it[1]:,.0f})" for name, it in best.items())
    table.add_time(what, most, best[names[0]][0], best[names[1]][0], figures)
