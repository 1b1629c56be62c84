"""What a check said when it refused a wrong program: at which declaration, and whether at a fact or at the form. At a fact the text
says something else than is to be proved. At the form it says nothing of it: a name, a field, a goal or a step that is not there any more, or
words that do not parse. What this file does not know counts as form."""

import re

ERROR = re.compile(r"^(\S+?):\d+:\d+: error(?:\[[\w-]+\])?: (.*(?:\n  .*)*)", re.M)
DECLARATION = re.compile(r"`([^`\s]+)`: ")
# the checker goes on past a declaration that it refused
FOLLOWS = re.compile(r"was not admitted|declarations? that depends? on ")
# two types, values or sides are not the same; a tactic finds that the goal does not follow
FACTS = re.compile(
    r"the two (?:types|values|sides) (?:first )?differ|the two (?:types|values|sides) are |expected type `|does not hold \(this comparison"
    r"|`omega`: the goal does not follow|`search`: no proof of|`grind` found no proof|`rw`: no occurrence of|`cc`: ")
# another step of the function stands where one is to be
STEPS = re.compile(r"(?:expected type|but this has type) `\S+\.Lts\.\S")
# a function whose search leaves some of its goals, with no answers of its own for them
LEFT = re.compile(r"^fn (\S+): no proof: .*; `search` did not prove (.*)", re.M)


def errors(said):
    """The refusals of a check, those that follow from others left out: file, declaration, words."""
    for path, text in ERROR.findall(said):
        if FOLLOWS.search(text):
            continue
        name = DECLARATION.match(text)
        yield path, name.group(1) if name else "", text[name.end():] if name else text


def is_fact(declaration, words):
    return bool(declaration) and bool(FACTS.search(words)) and not STEPS.search(words)


def left_by_search(said):
    """The goals that are left of each function that has no answers of its own for them."""
    return {name: re.findall(r"`([^`]+)`", goals) for name, goals in LEFT.findall(said)}
