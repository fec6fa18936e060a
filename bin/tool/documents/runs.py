"""Checks of the files of cases: their form, and the number of runs that the program of cases counts in each."""

from tool.cases import TOP, count, faults, names


def checks(_):
    """Yields the faults of each file of cases."""
    with open(f"{TOP}/crates/case_runs/stdout", encoding="utf-8") as file:
        told = file.read().split("\n")[:-1]
    wanted = [f"{subject}: {count(subject)} of {count(subject)}" for subject in names()]
    for subject, line in zip(names(), wanted):
        yield faults(subject) + [f"crates/case_runs/stdout: it lacks the line {line}"] * (line not in told)
    yield [f"crates/case_runs/stdout: no file makes the line {it}" for it in told if it not in wanted]
