"""What the kit prints of what it proved, and of what it didn't. A line of a form that isn't known
raises a ValueError."""

import re

# A line on a function: what came of it, and why.
FUNCTION = re.compile(r"fn (\S+): (proved|not proved|no proof)\b(.*)")
# An error in a proof or a definition: its place, the goal or the name, and why.
ERROR = re.compile(r"\S*?(\w+/(?:proofs|specs)/[\w/]+)\.antt:(\d+):\d+: error: (?:`([^`]+)`)?(.*)")
NAMES_ANOTHER = re.compile(r"\d+ declarations? that depends? on ")  # which has an error of its own
# The prover met a limit of its own, which says nothing of what was to be proved.
LIMIT = re.compile(
    r"give the call less to do|broke off|deep recursion|ran out of|outgrew the memory"
)
# The lines on functions and errors, whatever their form.
ANY = re.compile(r"fn |\S+:\d+:\d+: error|error\b|rattle: (?:error|no verdict)")
OF_A_FUNCTION = "Answers", "Invariants", "Proof"  # the files of its own proof
# A goal that isn't about what the function returns: a premise of a call, or what a value holds.
BESIDE = re.compile(r"-requires\b|^invariant_of-")
# An error says so if `⊤` was to be proved.
WANTS_NOTHING = re.compile(
    r"expected type `Rattle\.core\.specs\.Bool\.⊤`|`Unit \{0\}` \(expected\)"
)
LEMMA = re.compile(r"\s*(?:pub )?(?:abbrev )?([^\s:({]+) :")


def read(output):
    """Returns the parts of the lines on functions, and of those on errors, of the kit's output."""
    functions, errors = [], []
    for line in filter(ANY.match, output.splitlines()):
        of_function, of_error = FUNCTION.fullmatch(line), ERROR.fullmatch(line)
        if of_function:
            functions.append(of_function.groups())
        elif of_error:
            errors.append(of_error.groups())
        else:
            raise ValueError(f"the kit says what isn't known here: {line}")
    return functions, errors


def unproved(output):
    """Returns the functions and the lemmas that the kit's output says aren't proved, without those
    of which only what they name isn't, and those that only met a limit: of each function, whether a
    goal is among these that isn't about what it returns; of each lemma, a path and a line, and
    whether `⊤` was to be proved."""
    goals_in, lemmas, unproved_functions = {}, [], {}
    functions, errors = read(output)
    for path, line, goal, why in errors:
        folder, _, file = path.rpartition("/")
        if NAMES_ANOTHER.match(why) or LIMIT.search(why):
            continue
        if file in OF_A_FUNCTION:
            goals_in.setdefault(folder, []).append(goal or "")
        else:
            lemmas.append((f"{path}.antt", int(line), bool(WANTS_NOTHING.search(why))))
    for symbol, outcome, why in functions:
        folder = symbol.replace("::", "/proofs/", 1).replace("::", "/")
        _, searched, names = why.partition("`search` did not prove")
        goals = [*re.findall("`([^`]+)`", names), *goals_in.get(folder, [])]
        if outcome != "proved" and (searched or folder in goals_in):
            unproved_functions[symbol] = any(map(BESIDE.search, goals))
    return unproved_functions, lemmas


def conclusion_of(text, line):
    """Returns the words of what a lemma concludes, which has an error on this line of a file; none
    if that has `↔`, since each side is then a premise, too."""
    rows = text.split("\n")
    start = next((row for row in range(line - 1, -1, -1) if LEMMA.match(rows[row])), 0)
    name = LEMMA.match(rows[start])
    statement = rows[start : start + 1]
    for row in rows[start + 1 :]:
        if not row or name and row.lstrip().startswith(f"{name[1]} "):
            break
        statement.append(row)
    concluded = " ".join(statement).rpartition(" → ")[2]
    return {*re.findall(r"[\w≡-]+", concluded)} if "↔" not in concluded else set()
