"""A case on tree.py: the project's column."""
import seen
import tree
from cases import line


def by_tree(case):
    t = tree.Tree()
    for s in case.tree:
        answer, t = tree.perform(t, line(s))
        assert answer["r"] == 0, (s, answer)
    look = lambda t: {"tree": [e[:3] for e in tree.state(t)["tree"]], "cwd": tree.state(t)["cwd"]}
    before = look(t)
    answer, t = tree.perform(t, line(case.call))
    return {"answer": answer, "before": before, "after": look(t)}


def own(answer):
    return "%d %s" % (answer["r"], seen.NAMES[answer["r"]])
