"""What the documents say of the code, held against the code: functions with the names of their clauses, definitions,
quoted lines, and lists that logs of the kit have. Each function `wrong_..` gives what is wrong, in words, and mostly
how many names it looked at."""
import re
from collections import defaultdict
from pathlib import Path

TOP = Path(__file__).resolve().parents[2]
CRATES = re.findall(r"^(\w+)[^:#]*:", (TOP / "crates.txt").read_text(), re.M)
NAME = r"`([^`]+)`"
FUNCTION = re.compile(r"\s*(?:pub(?:\(\w+\))? )?(?:(?:const|unsafe|extern \"C\") )*fn (\w+)")
BLOCK = re.compile(r"(?:pub )?(?:unsafe )?(?:impl|trait)\b(?:<.*?>(?= ))?(.*)")
ITEM = re.compile(r"^ *(?:pub(?:\(\w+\))? )?(?:const |unsafe )*(?:fn|struct|enum|trait|const) (\w+)", re.M)
DEFINITION = re.compile(r"^ *(?:(?:pub|abbrev|unfoldable|record|data|newtype|class) )+([\w']+)", re.M)


def functions(crate):
    """The functions and public types of a crate: for each name, and for Type::name, the names of the clauses of each
    that has it."""
    found = defaultdict(list)
    for source in sorted((TOP / "crates" / crate / "src").glob("**/*.rt")):
        owner, clauses = None, None
        for line in source.read_text().splitlines():
            block, function = BLOCK.match(line), FUNCTION.match(line)
            if block:
                # The type of `impl Trait for Type` and of `impl Type`, or the trait, without its parameters.
                owner = re.match(r"\w+", block.group(1).split(" for ")[-1].strip()).group()
            elif line == "}":
                owner = None
            if function:
                clauses = set()
                found[function.group(1)].append(clauses)
                if owner:
                    found[f"{owner}::{function.group(1)}"].append(clauses)
            elif line.strip() == "{":
                clauses = None
            if clauses is not None:
                clauses.update(re.findall(r"\b(?:ensures|requires)\*? (\w+) \{", line))
        for name in re.findall(r"^pub (?:struct|enum|trait) (\w+)", source.read_text(), re.M):
            found[name].append(set())
    return found


def definitions():
    """The names of all definitions, and of the items of all sources, each with the files below crates/ that have
    it."""
    found = defaultdict(set)
    for pattern, files in [(DEFINITION, "crates/*/specs/*.antt"), (ITEM, "crates/*/src/**/*.rt")]:
        for file in sorted(TOP.glob(files)):
            for name in pattern.findall(file.read_text()):
                found[name].add(str(file.relative_to(TOP / "crates")))
    return found


def named(its, name):
    """Those of a crate's names that are this one, or that begin as `name*` does."""
    return [each for each in its if each == name or name.endswith("*") and each.startswith(name[:-1])]


def promises(text):
    """What each `By` of a page cites: pairs of the words, and (crate, functions, clauses, definitions). The crate is
    that of the section's heading if none is named."""
    for heading, section in re.findall(r"(?ms)^## ([^\n]*)\n(.*?)(?=^## |\Z)", text):
        of_section = (re.findall(NAME, heading) or [None])[-1]
        for item in re.findall(r"(?s)\bBy (`.*?)(?=\n\n|\n- |\Z)", section):
            crate = of_section
            for part in re.sub(r"\s+", " ", item).split(";"):
                other = re.match(r" ?`(\w+)`:(.*)", part)
                if other:
                    crate, part = other.groups()
                whole, (part, _, cited) = part, part.partition("(")
                names, _, clauses = re.sub(r"\bclauses?\b", "|", part).partition("|")
                yield whole.strip(), (crate, *(re.findall(NAME, each) for each in (names, clauses, cited)))


def wrong_promises(text):
    """What PROOFS cites of functions, clauses and definitions that is not in the code."""
    known, specs, wrong, count = {crate: functions(crate) for crate in CRATES}, definitions(), [], 0
    for words, (crate, names, clauses, cited) in promises(text):
        if crate not in CRATES:
            wrong.append(f"{words}: no crate {crate}")
            continue
        count += len(names) + len(clauses) * len(names) + len(cited)
        wrong += [f"{crate}: no function {name}" for name in names if not named(known[crate], name)]
        wrong += [
            f"{crate}: {each} has no clause {clause}"
            for name in names
            for each in named(known[crate], name)
            for clause in clauses
            if not any(clause in one for one in known[crate][each])
        ]
        wrong += [f"{crate}: no definition {name}" for name in cited if name not in specs]
    return wrong, count


def wrong_definitions(text):
    """What DEFINITIONS says that a file of the crates has, and it has not."""
    specs, wrong, count = definitions(), [], 0
    cited = re.findall(r"`(\w+/(?:specs|src)/[\w/]+\.\w+)`(?:\s+\(((?:`\w+`,?\s*)+)\))?", text)
    for place, names in cited:
        if not (TOP / "crates" / place).is_file():
            wrong.append(f"no file {place}")
        for name in re.findall(NAME, names):
            count += 1
            if place not in specs[name]:
                wrong.append(f"{place} has no {name}")
    return wrong, count


def wrong_claim(text):
    """What CLAIM quotes or names that is not in the code: blocks of code, clauses, files, functions and definitions.
    The section on how to read a contract names what the kit has, the last one what the kit assumes."""
    text = re.sub(r"(?s)### How to read a contract.*?(?=\n### )|## What is assumed.*", "", text)
    specs, known = definitions(), defaultdict(list)
    for crate in CRATES:
        for name, clauses in functions(crate).items():
            known[name] += clauses
    sources = [file.read_text() for file in sorted(TOP.glob("crates/*/src/**/*.rt"))]
    quoted = re.findall(r"(?m)^```rust\n((?:.*\n)*?)```$", text) + re.findall(r"`(ensures \w+ \{[^`]*\})`", text)
    paths = re.findall(r"`(?:crates/)?(\w+/(?:src|specs|must-fail)/[\w./-]+)`", text)
    pairs = [
        (clause, name)
        for clauses, name in re.findall(r"((?:`\w+`(?: and )?)+) of `([\w:]+)`", re.sub(r"\s+", " ", text))
        for clause in re.findall(NAME, clauses)
    ]
    names = re.findall(r"`([A-Z]\w+|\w+_\w+|\w+::\w+)`", text)
    wrong = [f"no source has: {code}" for code in quoted if not any(code in source for source in sources)]
    wrong += [f"no file {path}" for path in paths if not (TOP / "crates" / path).is_file()]
    wrong += [
        f"{name} has no clause {clause}" for clause, name in pairs if not any(clause in one for one in known[name])
    ]
    wrong += [f"no crate has {name}" for name in names if name not in specs and name not in known]
    return wrong, len(quoted) + len(paths) + len(pairs) + len(names)


# What CLAIM says in words of each field of the statement in engines/specs/Claim.antt.
STATEMENT = {
    "SolvesRightly": {
        "problem": "For every *T*",
        "problem_is": "that reads as a problem",
        "moment": "there is an answered moment *m*",
        "instance_is": "answered moment *m* of its instance",
        "right": "there is an answered moment *m*",
        "written_is": "the bytes written are the printing of *m*",
    },
    "BeginsRightly": {
        "past": "no past",
        "instance_is": "of the instance of *T*, with room for *N* more arcs",
        "future": "no future and no marks",
        "marks": "no future and no marks",
        "right": "s₀ has an answered moment",
    },
    "ServesRightly": {
        "problem": "For all byte strings *T* and *C*, all numbers *N*",
        "problem_is": "if *T* reads as a problem",
        "opening": "states s₀, .., sₖ",
        "begins": "s₀ has an answered moment",
        "replies": "replies r₁, .., rₖ",
        "goes": "for each *i*, TurnStep(sᵢ₋₁, tᵢ, rᵢ, sᵢ), and each moment of sᵢ is answered",
        "written_is": "the verdict line of s₀ and then the texts of r₁, .., rₖ, in order, and nothing else",
    },
    "JudgesRightly": {
        "problem": "For all *T* and *A*",
        "problem_is": "read as a problem and as an answer to it",
        "answer": "For all *T* and *A*",
        "answer_is": "read as a problem and as an answer to it",
        "right": "`valid` is written if and only if",
        "exact": "if and only if *A* is a legal flow with the ends of its arcs, its worth, and potentials that certify "
        "it, or a breach",
        "settles": "if `valid` is written, the flow of *A* is best, or no flow is legal",
        "written_is": "`valid` is written if and only if",
    },
}


def clause(function, name):
    """The text of a clause of an engine's function, from its name to the next clause or the body."""
    sources = sorted(TOP.glob("crates/engines/src/**/*.rt")) + sorted(TOP.glob("crates/checker/src/**/*.rt"))
    heads = r"(?ms)^\s*(?:pub(?:\(\w+\))? )?fn " + function + r"\b(.*?)^\s*\{"
    bodies = [body for source in sources for body in re.findall(heads, source.read_text())]
    texts = [re.findall(rf"(?s)\bensures {name} \{{(.*?)(?=\n\s*(?:ensures|requires)\b|\Z)", body) for body in bodies]
    return " ".join(text for each in texts for text in each)


def over_devices(name):
    """What a clause over devices says of what they gave and took: the head of its definition, `..OnDevices`, or the name."""
    for specs in sorted(TOP.glob("crates/engines/specs/*.antt")) + sorted(TOP.glob("crates/checker/specs/*.antt")):
        head = re.search(rf"(?m)^{name} [^:\n]*=\n\s+(\w+OnDevices)\b", specs.read_text())
        if head:
            return head.group(1)
    return name


def wrong_statement(text):
    """How the statement of CLAIM and that of the prover differ: fields of engines/specs/Claim.antt that no words of the
    page say, or that are gone; a premise of `the_claim` that is no clause of those that the page names, or the reverse;
    and a conclusion that Claim.antt does not define."""
    page, wrong, count = re.sub(r"\s+", " ", text), [], 0
    specs = (TOP / "crates/engines/specs/Claim.antt").read_text()
    law = (TOP / "crates/engines/src/claim.rt").read_text()
    for record, fields in STATEMENT.items():
        body = re.search(rf"(?s)record {record}\b.*?where\n(.*?)(?:\n\n|\Z)", specs)
        there = re.findall(r"(?m)^  pub (\w+) :", body.group(1)) if body else []
        count += len(fields)
        if there != list(fields):
            wrong.append(f"{record} has the fields {there}; the words of CLAIM are known for {list(fields)}")
        wrong += [f"CLAIM does not say {record}.{name}: {words}" for name, words in fields.items() if words not in page]
    drawn = re.search(r"The law `the_claim` draws it from the clauses? (.*?);", page)
    cited = re.findall(r"((?:`\w+`(?: and )?)+) of `(\w+)`", drawn.group(1) if drawn else "")
    clauses = [clause(function, name) for names, function in cited for name in re.findall(NAME, names)]
    heads = {over_devices(text.split()[0]) for text in clauses if text.strip()}
    premises = set(re.findall(r"→ ([A-Z]\w+)", law)) - {"Written"}
    concluded = set(re.findall(r"→ Written \((\w+)", law)) | set(re.findall(r"ensures \w+ \{ (\w+) \}", law))
    count += len(heads) + len(premises) + len(concluded)
    if not premises or premises != heads:
        wrong.append(f"the_claim rests on {sorted(premises)}; the clauses that CLAIM names begin with {sorted(heads)}")
    defined = set(DEFINITION.findall(specs))
    wrong += [f"Claim.antt does not define {name}" for name in sorted(concluded - defined)]
    return wrong, count


def wrong_sums(text):
    """Which functions have sums that may wrap and are not in the list of PROOFS, and which are there and have none."""
    section = text.split("may sums wrap")[1].split("\nPromises")[0]
    listed, found = set(), set()
    for names, place in re.findall(r"((?:`\w+`,?\s+)+)in\s+`(\w+/src/[\w/]+\.rt)`", section):
        listed |= {(place, name) for name in re.findall(NAME, names)}
    for source in sorted((TOP / "crates").glob("*/src/**/*.rt")):
        crate, file = source.relative_to(TOP / "crates").parts[0], source.relative_to(TOP / "crates")
        for number, line in enumerate(source.read_text().splitlines(), 1):
            if re.search(r"\b(wrapping|overflowing)_\w+\(", line):
                found.add((str(file), function_at(crate, file.relative_to(crate), number)))
    wrong = [f"PROOFS does not list {name} of {place}" for place, name in sorted(found - listed)]
    wrong += [f"{name} of {place} has no sum that may wrap" for place, name in sorted(listed - found)]
    return wrong, len(found)


def wrong_laws(text):
    """Which laws, functions with nothing to run, no item of PROOFS names; and which law of plans no must-fail edit
    breaks."""
    wrong, cited, count = [], defaultdict(set), 0
    for _, (crate, names, _, _) in promises(text):
        for name in names:
            cited[name] |= {crate}
    for source in sorted((TOP / "crates").glob("*/src/**/*.rt")):
        crate = source.relative_to(TOP / "crates").parts[0]
        laws = re.findall(r"/// A law, with nothing to run(?:.*\n *///)*.*\n *pub fn (\w+)", source.read_text())
        count += len(laws)
        wrong += [f"PROOFS does not name the law {name} of {crate}" for name in laws if crate not in cited[name]]
        if crate == "plan_laws":
            edits = " ".join(edit.name for edit in (TOP / "crates" / crate / "must-fail").glob("*.edit"))
            wrong += [f"no must-fail edit breaks {name}" for name in laws if f".{name}." not in edits]
    return wrong, count


def wrong_rows(readme, architecture):
    """Which crates have no row, or none of one line, in the table of README and the list of ARCHITECTURE; what these rows and
    the lists of ARCHITECTURE name and a crate has not; and which source does not say in its first line what it is."""
    known, wrong, count = {crate: functions(crate) for crate in CRATES}, [], 0
    for page, rows, end in [
        ("README", re.findall(r"(?m)^\| (`.*\|)$", readme), "|"),
        ("ARCHITECTURE", re.findall(r"(?m)^- (`.*)$", architecture.split("## One run")[0]), ":"),
    ]:
        rows = [(re.findall(NAME, row.split(end)[0]), row) for row in rows]
        for crate in CRATES:
            its = [row for names, row in rows if crate in names]
            count += 1
            if len(its) != 1 or len(its[0]) > 118:
                wrong.append(f"{page}: {crate} has no row of one line of at most 120 characters: {its}")
            elif page == "README":
                names = re.findall(NAME, its[0].split("|")[2])
                count += len(names)
                wrong += [f"{page}: {crate} has no {name}" for name in names if not named(known[crate], name)]
    calls = architecture.split("## One run, function by function")[1].split("\n## ")[0]
    for crate, item in re.findall(r"(?m)^- `(\w+)`: (.*(?:\n  .*)*)", calls):
        names = re.findall(r"`([\w:]+)`", item)
        count += len(names)
        wrong += [f"ARCHITECTURE: {crate} has no {name}" for name in names if not named(known.get(crate, {}), name)]
    for source in sorted(TOP.glob("crates/*/src/**/*.rt")):
        if source.name != "tests.rt" and not source.read_text().startswith("//! "):
            wrong.append(f"{source.relative_to(TOP)} does not say in its first line what it is")
    return wrong, count


def wrong_names(architecture, decisions):
    """Which modules the steps of the solver have in ARCHITECTURE, and not in their crate; and which names of DECISIONS
    are no crate's, no definition, function, law or lemma of one, no function of the Python package and none of std."""
    wrong, count = [], 0
    for crate, modules in re.findall(r"\(`(\w+)`: ((?:`\w+`(?:,\s+)?)+)\)", architecture.split("## The solver")[1]):
        for module in re.findall(NAME, modules):
            count += 1
            if not (TOP / "crates" / crate / "src" / f"{module}.rt").is_file():
                wrong.append(f"ARCHITECTURE: {crate} has no module {module}")
    known = {"BufWriter", "AllocError", *CRATES, *definitions()}
    for crate in CRATES:
        known |= set(functions(crate))
    for pattern, files in [(DEFINITION, "crates/*/proofs/**/*.antt"), (r"(?m)^def (\w+)", "python/src/mcf_plan/*.py")]:
        for file in TOP.glob(files):
            known |= set(re.findall(pattern, file.read_text()))
    names = re.findall(r"`([A-Z]\w+|\w+_\w+|\w+::\w+)`", decisions)
    wrong += [f"DECISIONS: nothing has the name {name}" for name in names if name not in known]
    return wrong, count + len(names)


def wrong_promise(readme, claim):
    """Which sentences of README's promise, its quotation, are not those of CLAIM for planners, word for word."""
    planner = re.sub(r"\s+", " ", claim.split("## For a planner")[1].split("\n## ")[0].replace("**", ""))
    quoted = re.sub(r"\s+", " ", " ".join(re.findall(r"(?m)^> (.*)$", readme)))
    sentences = [each.rstrip(".") for each in re.split(r"(?<=\.) ", quoted) if each]
    return [f"CLAIM does not say: {each}" for each in sentences if each not in planner], len(sentences)


def wrong_links(pages):
    """Which links of the pages lead to no file of the repository, or to no heading of it."""
    wrong, count = [], 0
    for page in pages:
        for link in re.findall(r"\]\(([^):]+)\)", page.read_text()):
            count += 1
            path, _, anchor = link.partition("#")
            target = page.parent / path if path else page
            heads = re.findall(r"(?m)^#+ (.*)$", target.read_text()) if anchor and target.is_file() else []
            anchors = [re.sub(r"[^\w\- ]", "", head.lower()).replace(" ", "-") for head in heads]
            if not target.exists() or anchor and anchor not in anchors:
                wrong.append(f"{page.relative_to(TOP)}: {link}")
    return wrong, count


def wrong_assumed(claim, readme, log):
    """How what CLAIM lists as assumed, and what README counts, differs from what a log says of the program: how many
    functions of each library the proof can rest on, and the names of the first ones. A log without that says
    nothing."""
    reports = re.findall(r"(?m)^axioms (\w+): (.*?)(?:, \.\.\.)? \((\d+) of the \d+ declared\)$", log)
    totals = re.findall(r"(?m)^logic=proved .*\baxioms=(\d+)\b", log)
    if not totals:
        return []
    section, wrong, whole = claim.split("## What is assumed")[1], [], int(totals[-1])
    items = re.findall(r"(?m)^- \d+ of the [^\n`]*, `(\w+)`:((?:[^\n]|\n  )*)", section)
    listed = {crate: re.findall(NAME, names) for crate, names in items}
    for crate, first, count in reports:
        names = {f"{crate}::{name}" for name in listed.get(crate, [])}
        if len(names) != int(count) or not set(first.split(", ")) <= names:
            wrong.append(f"{crate}: {count} functions, {first}, ..; the page lists {sorted(names)}")
    for page, text in [("CLAIM", claim), ("README", readme)]:
        if not re.search(rf"\b{whole}\b\s+(?:of them|functions of the C\s+library)", text):
            wrong.append(f"{page} does not say that {whole} are assumed")
    if sum(map(len, listed.values())) != whole:
        wrong.append(f"CLAIM lists {sum(map(len, listed.values()))} functions, and {whole} are assumed")
    return wrong


def function_at(crate, file, line):
    """The function of a crate's file that a line belongs to."""
    lines = (TOP / "crates" / crate / file).read_text().splitlines()[: int(line)]
    heads = [head.group(1) for head in map(FUNCTION.match, lines) if head]
    return heads[-1] if heads else file


def refusal(crate, said):
    """Where the prover refused an edit, and by what: a clause by its name, the type's invariant, what the contract
    ensures, or else the goal or the words."""
    place = re.match(r"(?:note: )?(?:(?:\./)?([\w/]+\.\w+):(\d+):\d+: )?(?:error: |note: )?(.*)", said)
    file, line, what = place.groups()
    if file is None:
        return "", what
    parts, goal, clause = file.split("/"), re.search(r"`([\w-]+)`", what), re.search(r"clause-(\w+)", what)
    where = function_at(crate, file, line) if parts[0] == "src" else parts[-2] if len(parts) > 2 else parts[-1]
    if clause:
        return where, f"`{clause.group(1)}`"
    if "invariant_of" in what or "invariant of the type" in what:
        return where, "the type's invariant"
    if "what the function ensures" in what or goal and goal.group(1).startswith("returns"):
        return where, "its `ensures`"
    return where, f"`{goal.group(1)}`" if goal else what[:60]


def must_fail_table(log):
    """A table of what refused each must-fail edit that a log of the gate names; for each crate the edits that it
    names; and what it says of those that it does not call refused."""
    rows, weak = defaultdict(dict), []
    for crate, edit, said in re.findall(r"must-fail (\w+)/(\S+)\.edit: (.*)", log):
        refused = re.match(r"refused, as it must be(?:: (.*))?$", said)
        if refused:
            rows[crate][edit] = refusal(crate, refused.group(1) or "")
        elif said.startswith("refused"):
            rows[crate][edit] = "", "a missing name alone" if "took away" in said else "a limit of the prover alone"
        else:
            rows[crate][edit] = "", said[:60]
            weak.append(f"{crate}/{edit}: {said}")
    text = "# What refused each wrong body\n\nMade of the gate's log: where the prover first said no, and why.\n"
    for crate in sorted(rows):
        text += f"\n## `{crate}`\n\n| Edit | Refused in | By |\n|---|---|---|\n"
        for edit, (place, what) in sorted(rows[crate].items()):
            text += f"| `{edit}` | `{place}` | {what.replace('|', chr(92) + '|')} |\n"
    return text, rows, weak


def wrong_table(log, path):
    """Writes the table of a log of the gate to a path, and gives what is wrong: edits that are not refused, and edits
    of a crate that a log which names others of it leaves out. Of a crate that was not proved the log names none."""
    table, rows, wrong = must_fail_table(log)
    for crate in rows:
        edits = {edit.stem for edit in (TOP / "crates" / crate / "must-fail").glob("*.edit")}
        if edits != set(rows[crate]):
            wrong.append(f"{crate}: the log names other edits: {sorted(edits ^ set(rows[crate]))}")
    if rows:
        path.write_text(table)
    return wrong, sum(map(len, rows.values()))
