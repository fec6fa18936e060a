"""This program. Input: its path, a folder, and words. Output: the verdict and the plan, in the form of `cabal.py`."""

import json

from beside import plans
from tool.plans.json import plan_json

VERDICTS = {0: "plan", 1: "no plan", 2: "gave up", 3: "refused"}


def plan(program, folder, words):
    """Runs the program in a folder, and returns its answer."""
    status, told, seconds = plans.run([program, "plan", "--json", *words], folder)
    if status is None:
        return plans.Answer("no answer", seconds, told)
    verdict = VERDICTS.get(status, f"status {status}")
    return plans.Answer(verdict, seconds, told, *(read(json.loads(told), words) if verdict == "plan" else ()))


def read(answer, words):
    """Returns the components and the flags of a plan, and the plan in cabal's form."""
    components, flags = set(), {}
    for node in answer["nodes"]:
        name, _, version = node["package"].rpartition("-")
        components.add((name, version, node["component"]))
    chosen = {it["var"]: it["value"].split() for it in answer["choices"]}
    for variable, value in chosen.items():
        package, mark, flag = variable.rpartition(":")
        if mark and value[0] in ("on", "off") and not flag.startswith("*") and package in chosen:
            flags.setdefault((package.rpartition(".")[2], chosen[package][0]), {})[flag] = value[0] == "on"
    return components, flags, plan_json(answer, words)[0]
