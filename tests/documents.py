# SPDX-License-Identifier: Apache-2.0
"""The documents beside the sources, for tests/definitions: names, files, links, calls, crates, numbers and lengths, also in the
header for C and in tools/help. Each function of CHECKS yields pairs: whether something is right, and what is wrong if not."""
import glob, importlib.machinery, importlib.util, itertools, math, os, re, sys

TOP = os.path.dirname(os.path.dirname(os.path.abspath(__file__)))
DOCUMENTS = ["README.md", "CHANGELOG.md", "CONTRIBUTING.md"]
DOCUMENTS += sorted(os.path.relpath(path, TOP) for path in glob.glob(f"{TOP}/docs/*.md"))
HEADER = "bindings/c/doqallin.h"
MOST_WORDS = {"all documents": 25_000, "README.md": 900, "docs/ARCHITECTURE.md": 2_400, "docs/CLAIMS.md": 3_000}
MOST_WORDS |= {"docs/DEFINITIONS.md": 2_600, "docs/MEASUREMENTS.md": 1_800}
LONGEST_SENTENCE = 30
# Names of what is no more, of upstream's, of the kit's and its command's, and of a caller's own.
ELSEWHERE = set(
    """vortex_ VORTEX_ vortex DOQALLIN_NO_ROOM NO_ROOM filter_form place line_zones lines find show
    CoercePValue struct_unchecked unwrap_or_else tidy plant only incremental Proof
    my_crate new1 price stock Ibindings Lbindings WHAT_GOES_WRONG""".split()
)
SMALL = "zero one two three four five six seven eight nine ten eleven twelve thirteen fourteen fifteen sixteen seventeen eighteen nineteen".split()
NUMBERS = {**{word: at for at, word in enumerate(SMALL)}, "twenty": 20, "forty": 40, "a thousand": 1000}
texts = {}


def load(script):
    """Returns a script of tools/ as a module."""
    sys.dont_write_bytecode = True
    loader = importlib.machinery.SourceFileLoader(script, f"{TOP}/tools/{script}")
    module = importlib.util.module_from_spec(importlib.util.spec_from_loader(script, loader))
    loader.exec_module(module)
    return module


claims = load("claims")


def read(path):
    if path not in texts:
        with open(f"{TOP}/{path}", encoding="utf-8", errors="replace") as it:
            texts[path] = it.read()
    return texts[path]


def files(folder, *ends):
    """Returns the files below a folder that end so, by their paths from the top."""
    found = []
    for at, _, names in os.walk(f"{TOP}/{folder}"):
        found += [os.path.relpath(f"{at}/{name}", TOP) for name in names if name.endswith(ends)]
    return sorted(found)


def numbers_in(text, names):
    """Returns the numbers by name that the text has in this form."""
    return {name: int(number) for name, number in re.findall(names, text)}


def prose(page):
    """Returns a document without its blocks of code."""
    return re.sub(r"^```.*?^```$", "", read(page), flags=re.DOTALL | re.MULTILINE)


def section(page, heading):
    return read(page).partition(f"\n## {heading}")[2].partition("\n## ")[0]


def known_names():
    """Returns every word of the sources and the scripts, every name of a file or folder, and every option of a program."""
    paths = [path for folder in ["crates", ".ci", "bench", "bindings", "tests", "tools"] for path in files(folder, "")]
    paths += [name for name in os.listdir(TOP) if os.path.isfile(f"{TOP}/{name}")]
    words, options = set(re.findall(r"\w+", " ".join(paths + os.listdir(TOP)))), set()
    for path in paths:
        if not re.search(r"/(out|target|proofs|__pycache__)/|\.(md|so|a|pyc)$", path):
            words.update(re.findall(r"[^\W\d]\w*", read(path)))
            options.update(re.findall(r"--([a-z][a-z-]*)|long\(\"([a-z-]+)\"", read(path)))
    return words | ELSEWHERE, {option for pair in options for option in pair} | ELSEWHERE


def codes(page):
    """Returns what stands in backticks in a document, but for the first cells of tables about upstream."""
    found, is_upstream = set(), False
    for line in prose(page).split("\n"):
        is_upstream = line.startswith("| Upstream") or (is_upstream and line.startswith("|"))
        found.update(re.findall(r"`([^`]+)`", line.split(" | ", 1)[-1] if is_upstream else line))
    return sorted(found)


def names():
    """Each word in backticks stands in a source, a script or the name of a file; each option is one of a program."""
    known, options = known_names()
    for page in DOCUMENTS:
        for code in codes(page):
            lost = set(re.findall(r"\b[^\W\d]\w\w+", code)) - known
            yield not lost, f"{page}: nothing is named {' '.join(lost)}, as in `{code}`"
            lost = set(re.findall(r"(?<![\w-])--([a-z][a-z-]*)", code)) - options
            yield not lost, f"{page}: no program has the option {' '.join(lost)}"
            if re.fullmatch(r"(crates|docs|tests|tools|bench|bindings(?!/out)|\.ci)/[\w./-]*", code) and "NAME" not in code:
                yield os.path.exists(f"{TOP}/{code}"), f"{page}: no file is {code}"


def comments(path):
    """Returns the comments of the header, without the stars in front of their lines."""
    return [re.sub(r"\n +\* ?", "\n", comment).strip() for comment in re.findall(r"/\*(.*?)\*/", read(path), re.DOTALL)]


def header_names():
    """Each call, status, parameter and member that a comment of the header names is there, and each file."""
    code = re.sub(r"/\*.*?\*/", "", read(HEADER), flags=re.DOTALL)
    known = set(re.findall(r"\w+", code)) | {name.removeprefix("DOQALLIN_") for name in re.findall(r"DOQALLIN_\w+", code)}
    # Words of a setup, of a file's name, and of the licence.
    known |= {"WORD", "FILE", "SPDX"}
    pattern = r"\bdoqallin_\w+|\b(?:[A-Z][A-Z\d]*_[A-Z\d_]*[A-Z\d]|[A-Z]{4,})\b(?!\.md)|(?<=->)\w+|(?<=\*)[a-z]\w+"
    for comment in comments(HEADER):
        lost = set(re.findall(pattern, comment)) - known
        yield not lost, f"{HEADER}: nothing is named {' '.join(lost)}, as in: {comment[:60]}"
        for name in re.findall(r"\b(?:docs|crates)/[\w./]*\w", comment):
            yield os.path.exists(f"{TOP}/{name}"), f"{HEADER}: no file is {name}"


def helps():
    """Each option in tools/help is one that its program or its launcher takes, each command is one, and each file is there."""
    launched = set(re.findall(r"^    --(\w+)\)", read("tools/run_program"), re.MULTILINE)) | {"help"}
    for path in files("tools/help", ""):
        program, _, command = os.path.basename(path).partition("-")
        text, source = read(path), "".join(read(name) for name in files(f"crates/{program}/src", ".rt"))
        taken = launched | set(re.findall(r'"(?:--)?([a-z][a-z-]*)"', source))
        lost = set(re.findall(r"(?<![\w-])--([a-z][a-z-]*)", text)) - taken
        yield not lost, f"{path}: {program} has no option {' '.join(lost)}"
        yield not command or command in taken, f"{path}: {program} has no command {command}"
        for name in re.findall(r"\b(?:docs|crates)/[\w./]*\w", text):
            yield os.path.exists(f"{TOP}/{name}"), f"{path}: no file is {name}"


def calls():
    """Each TYPE::CALL in backticks is a call that tools/claims prints, or one of the Rust crate."""
    known = {claim.name.split(" for ")[-1] for crate in claims.library_crates() for claim in claims.public_claims(crate)}
    rust = "\n".join(read(path) for path in files("bindings/rust/src", ".rs"))
    for page in DOCUMENTS:
        for owner, call in re.findall(r"\b([A-Z]\w+)::([a-z]\w*)\b", " ".join(codes(page))):
            is_rust = re.search(rf"\bfn {call}\b", rust) and re.search(rf"\bstruct {owner}\b", rust)
            yield f"{owner}::{call}" in known or is_rust, f"{page}: no call is {owner}::{call}"


def anchors(page):
    """Returns the headings of a document as links name them."""
    heads = re.findall(r"^#+ (.+)$", read(page), re.MULTILINE)
    return {re.sub(r"[^\w -]", "", head.lower()).replace(" ", "-") for head in heads}


def links():
    """Each link, with its heading, leads to what is there."""
    for page in DOCUMENTS:
        for link in re.findall(r"\]\(([^)\s]+)\)", prose(page)):
            path, _, heading = link.partition("#")
            path = os.path.normpath(os.path.join(os.path.dirname(page), path)) if path else page
            yield os.path.exists(f"{TOP}/{path}"), f"{page}: no file for the link {link}"
            yield not heading or heading in anchors(path), f"{page}: no heading for the link {link}"


def printed_claims():
    """Each call that tools/claims prints is a function with words above it and a clause, but for those that CLAIMS.md names."""
    bare = re.search(r"public calls have no clause: (.*)", read("docs/CLAIMS.md"))[1]
    for crate in claims.library_crates():
        text, found = sources(crate), claims.public_claims(crate)
        yield found, f"tools/claims: {crate} has no public call"
        for claim in found:
            name = re.findall(r"\w+", claim.name)[-1]
            yield not claim.is_call() or re.search(rf"\bfn {name}\b", text), f"{crate} has no call {claim.name}"
            yield claim.promises() or f"`{claim.name}`" in bare, f"{crate}: {claim.name} has no clause"
            yield claim.words or " for " in claim.name, f"{crate}: {claim.name} has no words above it"


def sources(*crates):
    return "\n".join(read(path) for crate in crates for path in files(f"crates/{crate}/src", ".rt"))


def tables():
    """The calls in the table of CLAIMS.md are those of its crates, and the files in that of DEFINITIONS.md those of specs/."""
    crates = []
    for line in section("docs/CLAIMS.md", "Not proved, by crate").split("\n"):
        crates = re.findall(r"\*\*(\w+)\*\*", line) or crates
        for call in re.findall(r"`([\w:]+)`", line.split(" | ")[0] if line.startswith("| `") else ""):
            name = call.split("::")[-1]
            yield re.search(rf"\b(fn|impl|trait) {name}\b", sources(*crates)), f"docs/CLAIMS.md: no call of {crates} is {call}"
    rows = re.findall(r"^\| ([a-z_, ]+) \| (`.*) \|$", section("docs/DEFINITIONS.md", "What to read first"), re.MULTILINE)
    for crates, cells in rows:
        for name in re.findall(r"`([\w/]+)`", cells):
            paths = [f"{TOP}/crates/{crate}/specs/{name}.antt" for crate in crates.split(", ")]
            yield any(map(os.path.exists, paths)), f"docs/DEFINITIONS.md: {crates} has no {name}"


def blocks():
    """Each block of Rattle stands in the file that is named above it, and each of Rust in the tested text of the Rust crate."""
    for path, code in re.findall(r"`(crates/\S+)`\):\n\n```rust\n(.*?)```", read("docs/RATTLE.md"), re.DOTALL):
        yield code in read(path), f"docs/RATTLE.md: the code is not in {path}: {code.strip().splitlines()[0]}"
    tested = re.sub(r"^//! ?", "", read("bindings/rust/src/lib.rs"), flags=re.MULTILINE)
    for code in re.findall(r"^```rust\n(.*?)^```$", read("docs/RUST_AND_C.md"), re.DOTALL | re.MULTILINE):
        yield code in tested, f"docs/RUST_AND_C.md: the code is not in lib.rs: {code.splitlines()[0]}"


def kit_crates():
    """The crates of the kit that are used are those that PROVED.md and no other page lists as trusted."""
    lines = [re.sub(r"#.*|^[^:#]*:", "", line) for line in read("crates.txt").split("\n")]
    used = {word for line in lines for word in line.split()} - set(uses())
    trusted = read("docs/PROVED.md").partition("the kit's crates that are used here:")[2].partition(".\n")[0]
    yield used == set(re.findall(r"`(\w+)`", trusted)), f"docs/PROVED.md: the kit's crates that are used are {sorted(used)}"


def uses():
    """Returns the crates of the repository, each with those that its line in crates.txt names."""
    lines = [re.sub(r"#.*", "", line).split(":") for line in read("crates.txt").split("\n") if ":" in line]
    own = [line[0].split()[0] for line in lines]
    return {name: [word for word in line[1].split() if word in own] for name, line in zip(own, lines)}


def crates():
    """Each crate has a row in ARCHITECTURE.md, with the crates that use it, or how many these are."""
    below = uses()
    text = read("docs/ARCHITECTURE.md").partition("\n## ")[0]
    rows = re.findall(r"^\| ([a-z_, ]+) \|.*\| ([^|]*) \|$", text, re.MULTILINE)
    shown = {crate for cell, _ in rows for crate in cell.split(", ")}
    yield shown == set(below), f"docs/ARCHITECTURE.md: the crates {sorted(shown ^ set(below))}"
    for cell, last in rows:
        of_row = set(cell.split(", "))
        users = {user for user, used in below.items() if of_row & set(used)}
        said = set(re.findall(r"\w+_\w+|rows", last)) & set(below)
        if "crates of calls" in last:
            said |= {crate for crate in below if crate.endswith("_calls")}
        count = re.match(r"(\d+) crates$", last)
        is_right = len(users) == int(count[1]) if count else users - of_row <= said <= users | of_row
        yield is_right, f"docs/ARCHITECTURE.md: {cell} is used by {', '.join(sorted(users)) or 'nothing'}"


def number(text):
    """Returns what a number says, in digits or as a word."""
    text = text.lower()
    return NUMBERS[text] if text in NUMBERS else float(text.replace(",", ""))


def constant(path, name):
    """Returns the first number that a source gives to a name."""
    return int(re.search(rf"\b{name}\b[^=\n]* = (?:[^\n]*?or |[^\n]*?, )?([\d_]+)", read(path))[1])


def line_after(path, start):
    """Returns what a source has behind these words, to the end of the line."""
    return read(path).partition(start)[2].partition("\n")[0]


def count_of(text, pattern):
    return len(re.findall(pattern, text, re.MULTILINE))


def users_of_proofs():
    """Returns how many crates use lemmas in proofs/ of another one here."""
    own = uses()
    found = set()
    for path in files("crates", ".rt", ".antt"):
        crate = path.split("/")[1]
        if set(re.findall(r"Rattle\.(\w+)\.proofs", read(path))) & set(own) - {crate}:
            found.add(crate)
    return len(found)


def mean_of_values():
    """Returns how many ratios the table of values has, where equal and order count twice, and their geometric mean."""
    ratios = []
    for call, cells in re.findall(r"^\| (\w+) \|(.*)\|$", section("docs/MEASUREMENTS.md", "Each call"), re.MULTILINE):
        found = [float(ratio) for ratio in re.findall(r"\d\.\d\d", cells)]
        ratios += [ratio for ratio in found if ratio] * (2 if call in ("equal", "order") else 1)
    return [len(ratios), round(math.exp(sum(map(math.log, ratios)) / len(ratios)), 2)]


def times_of_searches():
    """Returns the least and the greatest time of a search of a whole file, by mawk's, and what a search by the index takes."""
    table = section("docs/MEASUREMENTS.md", "Searches beside mawk: `bench/search`")
    times = [float(row) for row in re.findall(r"^\| .* \| .* = [\d.]+ \| ([\d.]+) \|", table, re.MULTILINE)]
    return [min(times), max(times)], [float(re.search(r"That is ([\d.]+) % of", table)[1])]


def flags_of_statistics():
    """Returns how many bytes of flags there are: a bound that is not there is not exact."""
    return sum(flags[2] <= flags[1] and flags[4] <= flags[3] for flags in itertools.product([0, 1], repeat=5))


def of_values():
    """Sentences about values and calls: (page, sentence with {} for each number, the numbers)."""
    inline = constant("crates/vortex_dtype/src/buffer.rt", "INLINE_BYTES")
    variants = read("crates/vortex_dtype/src/error.rt").partition("pub enum VortexError {")[2].partition("\n}")[0]
    variants = count_of(variants, r"^    [A-Z]\w+")
    sizes = numbers_in(read("crates/scalar_tests/src/sizes.rt"), r"size_of::<([\w<>]+?)>\(\) == (\d+)")
    sizes = [sizes[name] for name in ["Option<ScalarValue>", "ScalarValue", "ByteBuffer"]]
    optional = len(set(re.findall(r"fn (as_\w+_opt)", read("crates/vortex_views/src/downcast.rt"))))
    bare = sum(not claim.promises() for crate in claims.library_crates() for claim in claims.public_claims(crate))
    unsafes = count_of(sources(*uses()), r"\bunsafe \{")
    digits = int(re.search(r"precision > (\d+)", read("crates/logical_types/src/logical.rt"))[1])
    return [
        ("docs/PROVED.md", "The crates' {} `unsafe` blocks", [unsafes]),
        ("docs/CLAIMS.md", "{} public calls have no clause", [bare]),
        ("docs/CLAIMS.md", "and the {} crates of calls", [sum(crate.endswith("_calls") for crate in uses())]),
        ("docs/RATTLE.md", "At most {} bytes are held inside a buffer", [inline]),
        ("docs/DECISIONS.md", "A buffer holds at most {} bytes", [inline]),
        ("docs/DIFFERENCES.md", "at most {} bytes are held inline", [inline]),
        ("docs/RATTLE.md", "`VortexError` has {} variants", [variants]),
        ("docs/DIFFERENCES.md", "{} named refusals", [variants]),
        ("docs/RATTLE.md", "The {} `.._opt` require", [optional]),
        ("docs/DECISIONS.md", "an optional value takes {} bytes, a `ScalarValue` {} and a buffer {}", sizes),
        ("docs/DECISIONS.md", "A decimal has at most {} digits", [digits]),
        ("docs/DECISIONS.md", "Each of the {} types of decimals", [sum(precision + 1 for precision in range(1, digits + 1))]),
        ("CHANGELOG.md", "decimals to {} digits", [digits]),
        ("docs/STATISTICS.md", "byte 1 has one of {} values", [flags_of_statistics()]),
    ]


def of_limits():
    """Sentences about limits and programs, in the same form."""
    nested = constant("crates/filter_sql/src/parsing.rt", "MAX_DEPTH")
    lines = constant("crates/vortex_call/src/lib.rt", "DEPTH")
    records, cut = re.findall(r'default_value\("(\d+)"\)', read("crates/zone_map/src/commands.rt"))
    stacks = re.findall(r", ([\d.]+)\)", line_after("tests/bindings", "CALL_STACKS = "))
    statuses = numbers_in(read("crates/vortex_c/src/status.rt"), r"pub const ([A-Z]\w+): u32 = (\d+);")
    first, kinds = re.search(r"enum \{\s+(DOQALLIN_F32 = (\d+),[^}]*)\}", read("bindings/c/doqallin.h")).group(2, 1)
    rows = sources("rows").count("\n")
    bits = [int(bit) for bit in re.findall(r"value_if\(outcomes\.\w+, (\d)\)", read("crates/column_filters/src/zones.rt"))]
    ends = re.findall(r"^(?:too_large|no_answer|no_toolchain)=(\d+)", read("tools/run_program"), re.MULTILINE)
    return [
        ("CHANGELOG.md", "with the statuses 7 to {}", [max(statuses.values())]),
        ("CHANGELOG.md", "C has the kinds {} to {}", [int(first), int(first) + kinds.count("DOQALLIN_") - 1]),
        ("CHANGELOG.md", "nests more than {} deep answers `TooDeep`", [lines]),
        ("CONTRIBUTING.md", "some {} lines", [round(rows, -2)]),
        ("docs/PYTHON.md", "if more than {} brackets nest", [lines]),
        ("docs/ARCHITECTURE.md", "{} crates use lemmas of `proofs/` below", [users_of_proofs()]),
        ("docs/DECISIONS.md", "A line nests at most {} deep", [lines]),
        ("docs/DECISIONS.md", "takes up to {} kilobytes of stack", [max(map(float, stacks))]),
        ("docs/DECISIONS.md", "in at most {} reads", [constant("crates/rows/src/input.rt", "READS")]),
        ("docs/FILTERS.md", "- At most {} connectives and parentheses nest", [nested]),
        ("docs/FILTERS.md", "- and at most {} connectives and parentheses nest", [nested]),
        ("docs/FILTERS.md", "a chain has at most {} parts", [nested + 1]),
        ("docs/FILTERS.md", "{} if the filter can be False, plus {} if it can be Unknown, plus {} if", bits),
        ("docs/FILTERS.md", "In Rust and Python it is {} if you pass none", [constant("bindings/rust/src/filter.rs", "DEPTH")]),
        ("docs/SEARCHES.md", "for each zone of {} records", [int(records)]),
        ("docs/SEARCHES.md", "strings cut to {} bytes", [int(cut)]),
        ("docs/SEARCHES.md", "{} says that the input is above a megabyte and {} that there was no answer; {} says", [*map(int, ends)]),
    ]


def of_tests():
    """Sentences about tests and measurements, in the same form."""
    edits, (count, mean) = len(files("crates", ".edit")), mean_of_values()
    whole, by_index = times_of_searches()
    tables = constant("tests/filters", "TABLES")
    each, zones = map(int, re.search(r"FILTERS, ZONES, ROWS, COLUMNS = (\d+), (\d+)", read("tests/filters")).groups())
    columns = read("tests/keys").partition("COLUMNS = [")[2].partition("\n]")[0].count("Column(")
    cases = int(re.search(r"^(\d+) cases, 0 wrong$", read("crates/scalar_cases/stdout"), re.MULTILINE)[1])
    values = re.search(r'"DOQALLIN_COUNT", ([\d_]+)', read("bindings/python/test_doqallin.py"))[1]
    return [
        ("README.md", "Calls on values take {} of plain Rust's", [mean]),
        ("README.md", "takes {} to {} of the time of `mawk`", whole),
        ("docs/WHICH_TOOL.md", "{} % of the work", by_index),
        ("docs/MEASUREMENTS.md", "the geometric mean of the {} ratios is {}", [count, mean]),
        ("docs/PROVED.md", "{} wrong bodies, each", [edits]),
        ("docs/PROVED.md", "more than {} worked cases", [cases // 1000 * 1000]),
        ("docs/TESTING.md", "There are {}.", [edits]),
        ("docs/MEASUREMENTS.md", "edits (now {})", [edits]),
        ("docs/TESTING.md", "that {} random rows in each of {} columns", [constant("tests/keys", "ROWS"), columns]),
        ("docs/TESTING.md", "for {} random filters over {} tables", [tables * each, tables]),
        ("docs/TESTING.md", "for {} random zones", [tables * each * zones]),
        ("docs/TESTING.md", "print and read {} random values of each logical type", [constant("tests/words", "VALUES")]),
        ("docs/TESTING.md", "the stored cases of {} calls", [line_after("bench/values", "CALLS = (").count('"') // 2]),
        ("docs/TESTING.md", "which it builds: {} random values of each call", [int(values)]),
    ]


def numbers():
    """Each number of these sentences is what the sources say."""
    for page, sentence, wanted in of_values() + of_limits() + of_tests():
        pattern = re.escape(sentence).replace(r"\{\}", r"([\d.,]*\d|a thousand|[a-z]+)")
        found = re.search(pattern, prose(page), re.IGNORECASE)
        yield found, f"{page}: it says no more: {sentence}"
        if found:
            yield [number(text) for text in found.groups()] == wanted, f"{page}: it is {wanted}: {found[0]}"


def times():
    """The times of README.md's commands are those that tools/run_program says."""
    said = re.findall(r"^ *(compiling|building)='(.*)'$", read("tools/run_program"), re.MULTILINE)
    commands = ["./zone_map find - ", "./zone_map --build", "./scalar_rows --build"]
    # The first two are for zone_map, and what follows is for scalar_rows.
    for command, (_, time) in zip(commands, [*said[:2], said[3]], strict=True):
        row = re.search(rf"^\| `{re.escape(command)}.* \| (.*) \|$", read("README.md"), re.MULTILINE)
        yield row and row[1] == time, f"README.md: {command} takes {time}"


def quotients():
    """Each quotient of MEASUREMENTS.md is right."""
    for ours, plain, ratio in re.findall(r"([\d.,]+) / ([\d.,]+) = ([\d.]+)", read("docs/MEASUREMENTS.md")):
        most = 0.51 * 10 ** -len(ratio.split(".")[1])
        yield abs(number(ours) / number(plain) - float(ratio)) <= most, f"docs/MEASUREMENTS.md: {ours} / {plain} is not {ratio}"


def first_bytes():
    """The first bytes of keys in KEYS.md are those of the sources."""
    tags = numbers_in(read("crates/vortex_row/src/tags.rt"), r"const ([A-Z_]+): u8 = (\d+);")
    wanted = ["NULL", "FALSE TRUE", "LEAST", "ZERO", "_ GREATEST", "TEXT STRING", "SEQUENCE", "TAGGED"]
    rows = re.findall(r"^\| (\d+)(?:(?:,| to) (\d+))? \|", section("docs/KEYS.md", "The bytes"), re.MULTILINE)
    for row, names_of_row in zip(rows, wanted, strict=True):
        is_right = all(int(text) == tags.get(name, int(text)) for name, text in zip(names_of_row.split(), row))
        yield is_right, f"docs/KEYS.md: the first bytes {row} are not {names_of_row}"


def hexadecimal(cells):
    """Returns the bytes in backticks, and all between two with `to` between."""
    found = [int(code, 16) for code in re.findall(r"`([0-9a-f]{2})`", cells)]
    return list(range(found[0], found[-1] + 1)) if " to " in cells else found


def filter_bytes():
    """The bytes of types and of filters in FILTER_ENCODING.md are those of the sources."""
    path = "crates/filter_encoding/src/types.rt"
    plain = [int(max(codes)) for codes in re.findall(r"PType::\w+ => (\d+)|Some\((\d+) \+", read(path))]
    nullable = [constant(path, "NULLABLE") + code for code in plain] + [constant(path, "NULL")]
    heads = [int(code) for code in re.findall(r"::\w+ => (\d+)", read("crates/filter_encoding/src/heads.rt"))]
    types, _, filters = section("docs/FILTER_ENCODING.md", "The bytes").partition("\n| Filter | Bytes |\n")
    for name, wanted in [("takes no null", plain), ("takes a null", nullable)]:
        row = re.search(rf"^\| {name} \| (.*) \|$", types, re.MULTILINE)[1]
        yield hexadecimal(row) == wanted, f"docs/FILTER_ENCODING.md: what {name} has the bytes {wanted}"
    said = [code for row in re.findall(r"^\| .* \| (.*) \|$", filters, re.MULTILINE) for code in hexadecimal(row)]
    yield said == heads, f"docs/FILTER_ENCODING.md: filters have the bytes {heads}"


def examples():
    """The encodings in blocks of STATISTICS.md and FILTER_ENCODING.md are those of theorems in specs/Examples."""
    crates_of = {"docs/STATISTICS.md": ["statistics_bytes", "named_statistics"], "docs/FILTER_ENCODING.md": ["filter_encoding"]}
    for page, crates_of_page in crates_of.items():
        theorems = " ".join(" ".join(read(f"crates/{crate}/specs/Examples.antt") for crate in crates_of_page).split())
        found = re.findall(r"^```\n([0-9a-f ]+)\n```$", read(page), re.MULTILINE)
        yield found, f"{page}: no block is an encoding"
        for block in found:
            yield " ∷ ".join(map(str, bytes.fromhex(block))) + " ∷ []" in theorems, f"{page}: no theorem has {block}"


def named_types():
    """The logical types in the table of STATISTICS.md have the bytes that the sources give to their ids."""
    ids = re.findall(r'id == "\w+\.(\w+)" \{\s+(\d+)', read("crates/named_statistics/src/heads.rt"))
    row = re.search(r"\| the type: (.*) \|\n", section("docs/STATISTICS.md", "Logical types"))[1]
    is_right = [(name, byte) for byte, name in re.findall(r"(\d+) `?(\w+)", row)] == ids
    yield is_right, f"docs/STATISTICS.md: the bytes of logical types are {ids}"


def statuses():
    """Each status of C is in the table of RUST_AND_C.md."""
    said = set(re.findall(r"`([A-Z]\w+)`", section("docs/RUST_AND_C.md", "What a call reports")))
    lost = set(re.findall(r"pub const ([A-Z]\w+): u32", read("crates/vortex_c/src/status.rt"))) - said
    yield not lost, f"docs/RUST_AND_C.md: the table lacks {' '.join(sorted(lost))}"


def sentences(text):
    """Returns the sentences of prose, list items and cells, each as a list of words; a piece of code is one word."""
    text = re.sub(r"\[([^]]*)\]\([^)]*\)", lambda link: link[1][:1].upper() + link[1][1:], text)
    text = re.sub(r"^(#.*|\|[-| ]+\|)$", "", text, flags=re.MULTILINE)
    text = re.sub(r"`[^`]+`|\b\w+->\w+|(?<=\s)\*[a-z]\w*\b(?!\*)", "Code", text)
    found = []
    for part in re.split(r"\n\s*\n|\n(?=\s*(?:[-*]|\d+\.) )|\n(?=\|)| \| ", text):
        # The mark of an item, and a bold head.
        part = re.sub(r"^\s*(?:(?:[-*|]|\d+\.) )?(?:\*\*[^*]+\*\*:?)?", "", part)
        found += [words.split() for words in re.split(r"[.!?:]\W*\s+(?=[(\"']?[A-Z\d])", part)]
    return found


def lengths_of_sentences():
    """No sentence of a document, or of a comment of the header, has more than thirty words."""
    texts_of = {page: [prose(page)] for page in DOCUMENTS} | {HEADER: comments(HEADER)}
    for page, parts in texts_of.items():
        for words in sentences("\n\n".join(parts)):
            is_short = len(words) <= LONGEST_SENTENCE
            yield is_short, f"{page}: a sentence of {len(words)} words: {' '.join(words[:12])}"


def versions():
    """Each document names the version of upstream that NOTICE has."""
    version = r"vortex-array (\d+\.\d+\.\d+)"
    for page in DOCUMENTS:
        lost = set(re.findall(version, read(page))) - set(re.findall(version, read("NOTICE")))
        yield not lost, f"{page}: another version of upstream: {' '.join(lost)}"


def lengths():
    """All documents together, and ARCHITECTURE.md, have at most so many words."""
    counts = {page: len(read(page).split()) for page in DOCUMENTS}
    counts["all documents"] = sum(counts.values())
    for page, most in MOST_WORDS.items():
        yield counts[page] <= most, f"{page}: {counts[page]} words, of at most {most}"


CHECKS = [names, header_names, helps, calls, links, printed_claims, tables, blocks, kit_crates, crates, numbers, quotients]
CHECKS += [first_bytes, filter_bytes, named_types, statuses, examples, versions, times, lengths, lengths_of_sentences]
