"""Shorter programs of which a state is still outside."""

from cases import valid

ROUNDS, TRIES = 40, 3


def simpler(case):
    """The cases with one thing less."""
    steps, before = case.steps, case.before
    made = [case._replace(steps=steps[:at] + steps[at + 1 :]) for at in range(len(steps))]
    made += [case._replace(before=before[:at] + before[at + 1 :]) for at in range(len(before))]
    for at, text in enumerate(steps):
        made += [case._replace(steps=steps[:at] + (short,) + steps[at + 1 :]) for short in shorter(text)]
    for at, text in enumerate(before):
        made += [case._replace(before=before[:at] + (short,) + before[at + 1 :]) for short in shorter(text)]
    return [each for each in dict.fromkeys(made) if valid(each)]


def shorter(text):
    """A step with fewer letters."""
    words = text.split()
    made = []
    for at, word in enumerate(words):
        if word.isupper() and len(word) > 1:
            made.append(" ".join(words[:at] + [word[:-1]] + words[at + 1 :]))
    if words[0] == "~back" and int(words[3]) - int(words[2]) > 1:
        made.append(f"~back {words[1]} {words[2]} {int(words[3]) - 1}")
    return made


def shrink(worker, case, crashes):
    """Returns a case with fewer steps that still leaves a state outside, and these states. All that are one thing simpler are run side by
    side, up to TRIES times, and the shortest that still does is taken."""
    number = 1
    found = worker.check([{number + at: case} for at in range(10)], crashes).outside
    for _ in range(ROUNDS if found else 0):
        candidates = simpler(case)
        outside = []
        for _ in range(TRIES):
            number += 1000
            outside = worker.check([{number + at: each} for at, each in enumerate(candidates)], crashes).outside
            if outside:
                break
        if not outside:
            break
        case = min((each.case for each in outside), key=lambda each: (len(each.steps), len(each.before), len(str(each))))
        found = [each for each in outside if each.case == case]
    return case, found
