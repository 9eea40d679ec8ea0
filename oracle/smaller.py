"""A smaller input for a case that differs: parts are left out as long as our answer isn't document 01's. The Rust isn't asked again."""
import copy

import rule
from calls import BY_DESCRIPTIONS, BY_SURVEY, Lent, asked, fault, salted

ASKS = 500  # at most, for one case


def differs(case, held):
    """How a case differs by those words, or None."""
    case.rule, case.rust = rule.told(case, held.descriptions or [], held.survey or []), None
    case.got = asked([held, case])[0]
    return fault(case, case.rule, case.got, salted(0))


def heads(t):
    """Where groups of survey words or descriptions stand, in words that may be broken."""
    i = 0
    while i < len(t):
        yield i
        kind, w = t[i] >> 28, t[i]
        names = (w >> 16 & 255) + 3 >> 2, (w >> 8 & 255) + 3 >> 2, (w & 255) + 3 >> 2
        i += {1: 3 + names[0], 2: 1 + names[1] + names[2], 3: 4, 5: 4}.get(kind, 1)


def parts(t):
    """Stretches of words that may be left out, the longest first: halves, whole groups with what stands under them, single groups."""
    at = [*heads(t), len(t)]
    rank = {3: 0, 1: 0, 4: 1, 2: 1}
    found = {(0, len(t) // 2), (len(t) // 2, len(t))}
    for i, start in enumerate(at[:-1]):
        own = rank.get(t[start] >> 28, 2)
        end = next((e for e in at[i + 1:-1] if rank.get(t[e] >> 28, 2) <= own), len(t))
        found |= {(start, end), (start, at[i + 1])}
    return sorted((p for p in found if p[0] < p[1]), key=lambda p: p[0] - p[1])


def stretches(text):
    """Of bytes: halves, quarters and so on, lines, single bytes."""
    found, size = set(), len(text)
    while size > 1:
        size = (size + 1) // 2
        found |= {(i, min(i + size, len(text))) for i in range(0, len(text), size)}
    return sorted(found, key=lambda p: p[0] - p[1])


def lesser(case, held):
    """Inputs with a part left out: what holds it, its name, the whole, and the rest."""
    yield from ((case, "text", case.text, case.text[:i] + case.text[j:]) for i, j in stretches(case.text))
    for what, names in (("survey", BY_SURVEY), ("descriptions", BY_DESCRIPTIONS)):
        t = getattr(held, what)
        if t and case.name in names:
            yield from ((held, what, t, t[:i] + t[j:]) for i, j in parts(t))


def without_a_part(case, held, left):
    """Whether a part could be left out; asks at most so often."""
    for owner, what, whole, rest in lesser(case, held):
        if not left:
            break
        left.pop()
        setattr(owner, what, rest)
        if differs(case, held):
            return True
        setattr(owner, what, whole)
    return False


def smaller(case, held):
    """The case with a smaller input that still differs, what is lent, and how it differs; None where it doesn't differ when asked alone."""
    case, held, left = copy.copy(case), Lent(held.descriptions, held.survey), [None] * ASKS
    if not differs(case, held):
        return None
    while without_a_part(case, held, left):
        pass
    return case, held, differs(case, held)
