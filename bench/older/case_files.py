"""The cases of `modern-headers`, in `crates/case_runs/data/older`. In: a name of a file of cases. Out: the files, and what stands in for
each by the cases' output."""

from older.rewriter import unframed
from tool import cases


class BadCases(Exception):
    """No file of cases, or one in another form."""


def frames(subject):
    """Yields for each frame of each run without a fault a key, the file, and what stands in for it: none if it stays as it is."""
    try:
        for number, case in enumerate(cases.cases(subject)):
            for run in case.runs:
                if run.status == 0 and run.failing is None and run.digest is None:
                    for path, answer in unframed(run.output):
                        if path in case.files:
                            yield f"case {number}, line {case.line}: {case.name}: {path}", case.files[path], answer
    except (cases.BadCase, OSError) as error:
        raise BadCases(error) from error


def answered(subject):
    """Returns the file of each case and the answer to it, each file once."""
    found = {content: (key, answer) for key, content, answer in frames(subject)}
    files = {key: content for content, (key, _) in found.items()}
    return files, {key: content if answer is None else answer for content, (key, answer) in found.items()}


__all__ = ["BadCases", "answered"]
