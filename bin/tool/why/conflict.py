"""The explanation of `no plan`. In: a folder and the program's answer. Out: lines for a user of cabal."""

from tool.lint.folder import findings
from tool.why import proposals, reasons
from tool.why.chain import Chain
from tool.why.facts import Facts

# The most findings that are told, and codes of findings that take nothing out of a plan.
MOST_NOTES, UNCONCERNED = 3, ("L105", "L106", "L108")


def lines(folder, planner, answer, is_tried):
    """Yields the explanation, and then the changes that were tried."""
    names = answer.object["conflict"]
    facts = Facts(folder, names, answer.object["skipped"])
    yield reasons.headline(answer, names)
    yield ""
    yield from reason(folder, facts)
    yield from reasons.of_names(facts)
    yield ""
    yield from silent(folder)
    if is_tried:
        yield from proposals.lines(planner, facts)
    yield proof(answer)
    yield "read off the files, and not proved: all else above"


def silent(folder):
    """Yields what `lint` finds besides, as far as it may be to blame."""
    found = [it for it in findings(folder, with_folders=False) if it.code not in UNCONCERNED]
    yield from (f"note: {it}" for it in found[:MOST_NOTES])
    if len(found) > MOST_NOTES:
        yield f"note: `cabal-plan lint` finds {len(found) - MOST_NOTES} more"


def reason(folder, facts):
    """Yields the sentences, circles and notes that come first."""
    told = [*(f"note: {it}" for it in reasons.notes(folder)), *(Chain(facts).sentences() or reasons.circles(facts))]
    if told:
        yield from told
        yield ""


def proof(answer):
    """Returns the line on what is proved."""
    if "not_minimised" in answer.object:
        why = "not minimised: the limit was met, and some names may not be needed"
        return f"proved: there is no plan, as these names can't be chosen together; {why}"
    if len(answer.object["conflict"]) == 1:
        return "proved: there is no plan, as this can't be chosen, whatever else is"
    return "proved: there is no plan, as these names can't be chosen together, whatever else is chosen; without any one of them the others can"
