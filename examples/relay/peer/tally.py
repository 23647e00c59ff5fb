"""The relay's counts held against what the mirrors foretold."""

import re

from .mirror import BAD_POINT, UNOPENED, fault_word

# No peer here reads too slowly, and there are never too many fronts.
NEVER = ("slow", "turned_away")


def differences(before, after, verdicts, keys=False):
    """What grew otherwise than these connections make it grow, in words.

    A Handshake is unread by its key for certain only if the caller says so.
    """
    grown = {word: after[word] - before[word] for word in after}
    named = {word for word in grown if re.fullmatch(r"fault_\d+", word)} | {UNOPENED, BAD_POINT}
    found = []

    def compare(word, least, most):
        got = grown.get(word, 0)
        if not least <= got <= most:
            want = str(least) if least == most else f"{least} to {most}"
            found.append(f"{word} grew by {got}, not {want}")

    for word in sorted(named.union(*[verdict.words for verdict in verdicts])):
        least = sum(verdict.words == {word} for verdict in verdicts)
        compare(word, least, sum(word in verdict.words for verdict in verdicts))
    for word in NEVER:
        compare(word, 0, 0)
    for word, number in (("too_old", 24), ("not_agreed", 9)):
        same = grown.get(fault_word(number), 0)
        compare(word, same, same)
    ended = sum(verdict.dropped for verdict in verdicts)
    compare("dropped", ended, ended)
    unread = sum(verdict.unread for verdict in verdicts)
    compare("other_keys", unread if keys else 0, unread)
    # The bounds of the connections whose keys are unknown leave room; their sum does not.
    total = sum(grown.get(word, 0) for word in named)
    want = sum(bool(verdict.words) for verdict in verdicts)
    if total != want:
        found.append(f"{total} refused in all, not {want}")
    return found
