#!/usr/bin/env python3
"""Runs the examples and recipes of docs/BINDINGS.md and of the pages of the languages; of README.md the first commands and
those of Python, Rust and the programs; and the examples of docs/PROGRAMS.md, docs/AUDIT.md, docs/EXPLANATIONS.md and
docs/THEOREMS.md. Reports if docs/PERFORMANCE.md lacks a figure, or docs/BINDINGS.md a name or a command.

Usage: document_examples.py ROOT FOLDER. ROOT is the folder of the checkout, in which bindings/build has made the library; files
are made only in FOLDER. An example says in comments what it prints. What needs a missing tool is skipped.
"""
import json
import os
import re
import subprocess
import sys
from pathlib import Path

ROOT, FOLDER = (Path(argument).resolve() for argument in sys.argv[1:3])
sys.path.insert(0, str(ROOT / "tests"))

from skipping import has, python_with, skip

OUT = ROOT / "bindings/out"
LANGUAGES = {name: (ROOT / f"docs/{name}.md").read_text() for name in ("C", "RUST", "PYTHON", "GO", "JAVA", "JAVASCRIPT")}
# what they say to those who come from another package
FROM = {name: page.partition("\n## From ")[2] for name, page in LANGUAGES.items()}
PAGE = "\n".join([(ROOT / "docs/BINDINGS.md").read_text(), *(page.split("\n## From ")[0] for page in LANGUAGES.values())])
PROGRAMS = "\n".join((ROOT / f"docs/{name}.md").read_text() for name in ("PROGRAMS", "AUDIT", "EXPLANATIONS", "THEOREMS"))
PERFORMANCE = (ROOT / "docs/PERFORMANCE.md").read_text()
# the line that the first command of `cvss_tool` answers
LINE = "AV:N/AC:L/Au:N/C:N/I:N/A:C"
# each valid, rejected and not UTF-8, and ended in each way that the program knows
EDGES = [
    b"\xff", b"AV:N/AC:L/Au:N/C:N/I:N/A:C/\xe9", b"AV:N\rAC:L", b"\rAV:N", b"AV:N/AC:L/Au:N/C:N/I:N/A:C\r",
    b"AV:N/AC:L/Au:N/C:N/I:N/A:C\r\r", b"", b"\r", b"\r\r", b"a\x0bb", b"a\x0cb", b"a\x1cb", b"a\xc2\x85b",
    b"a\xe2\x80\xa8b", b"\xef\xbb\xbfAV:N", b"\xed\xa0\x80", b"\xed\xb2\x80", b"\xf0\x9f\x98\x80", b"a\x00b",
]


def blocks(text, language):
    """The blocks of a document that are of a language; of none if it is empty."""
    return [block for told, block in re.findall(r"^```(\w*)\n(.*?)^```$", text, re.M | re.S) if told == language]


def block_with(words, language="", page=PAGE):
    found = [block for block in blocks(page, language) if words in block]
    assert len(found) == 1, f"{len(found)} blocks have `{words}`"
    return found[0]


def expected(block, mark):
    lines = [line[len(mark):] for line in block.splitlines() if line.startswith(mark)]
    assert lines, f"no answer is told:\n{block}"
    return "".join(f"{line}\n" for line in lines)


def run(command, **options):
    options.setdefault("cwd", FOLDER)
    done = subprocess.run(command, stdout=subprocess.PIPE, stderr=subprocess.PIPE, **options)
    assert done.returncode == 0, f"{command}: status {done.returncode}\n{done.stderr.decode()}"
    return done.stdout


def check(told, wanted, block):
    assert told.decode() == wanted, f"{told.decode()!r}, and not {wanted!r}:\n{block}"


def python_environment():
    return {**os.environ, "PYTHONPATH": str(ROOT / "bindings/python"), "PYTHONDONTWRITEBYTECODE": "1"}


def try_python():
    pages = (PAGE, FROM["PYTHON"], (ROOT / "README.md").read_text(), (ROOT / "bindings/python/README.md").read_text())
    assert all(blocks(page, "python") for page in pages), "a page has no example of Python"
    for block in (block for page in pages for block in blocks(page, "python")):
        module = (re.findall(r"^(?:import|from) (pandas|dask)", block) or ["cvss_proved"])[0]
        if module == "dask":
            continue
        python = sys.executable if module == "cvss_proved" else python_with(module, f"the example of {module}")
        if python:
            check(run([python, "-c", block], env=python_environment()), expected(block, "# "), block)


def try_c():
    block = blocks(PAGE, "c")[0]
    (FOLDER / "program.c").write_text(block)
    run(["cc", "-I", ROOT / "bindings/c", "program.c", OUT / "libcvss.a", "-o", "program"])
    wanted = re.findall(r"/\* (.*?) \*/", block)[0] + "\n"
    check(run(["./program"]), wanted, block)
    if has("pkg-config", "the example of pkg-config"):
        (FOLDER / "bindings").symlink_to(ROOT / "bindings")
        install = block_with("bindings/install")
        home = {**os.environ, "HOME": str(FOLDER / "home")}
        run(install, shell=True, env=home)
        check(run(["./a.out"]), wanted, install)
        blank = {**os.environ, "HOME": str(FOLDER / "a home")}
        run([ROOT / "bindings/install", FOLDER / "a home/.local"])
        run(block_with('eval "cc'), shell=True, env=blank)
        check(run(["./a.out"]), wanted, install)


def try_rust():
    """In a crate of its own, for which cargo knows no registry."""
    crate = FOLDER / "rust_example"
    (crate / "src").mkdir(parents=True)
    head = '[package]\nname = "example"\nversion = "1.0.0"\nedition = "2021"\n\n[dependencies]\n'
    (crate / "Cargo.toml").write_text(f'{head}cvss_proved = {{ path = "{ROOT}/bindings/rust" }}\n')
    home = {**os.environ, "CARGO_HOME": str(FOLDER / "no_registry"), "CARGO_TARGET_DIR": str(crate / "target")}
    pages = (PAGE, FROM["RUST"], (ROOT / "README.md").read_text())
    assert all("use cvss_proved" in page for page in pages), "a page has no example of Rust"
    for block in (block for page in pages for block in blocks(page, "rust") if "cvss_proved" in block):
        body = f"fn main() -> Result<(), Box<dyn std::error::Error>> {{\n{block}\nOk(())\n}}\n"
        (crate / "src/main.rs").write_text(body)
        check(run(["cargo", "run", "--quiet", "--offline"], cwd=crate, env=home), expected(block, "// "), block)


def try_go():
    module = FOLDER / "go_example"
    module.mkdir()
    path = ROOT / "bindings/go"
    own = re.findall(r"^module (.*)$", (path / "go.mod").read_text(), re.M)[0]
    assert f"-replace={own}=" in PAGE, f"the page names no module {own}"
    (module / "go.mod").write_text(f"module example\n\ngo 1.19\n\nrequire {own} v2.0.0\n\nreplace {own} => {path}\n")
    for block in (blocks(FROM["GO"], "go")[0], blocks(PAGE, "go")[0]):
        body = f'package main\n\nimport (\n"errors"\n"fmt"\n\n"{own}"\n)\n\nfunc main() {{\n{block}}}\n'
        (module / "main.go").write_text(body)
        check(run(["go", "run", "."], cwd=module), expected(block, "// "), block)
    # vendored, it has all that it is built from
    run(["go", "mod", "vendor"], cwd=module)
    check(run(["go", "run", "-tags", "libcvss", "-mod=vendor", "."], cwd=module), expected(block, "// "), block)


def try_java():
    """With the jar of the library that bindings/build has made."""
    folder, jna = FOLDER / "java_example", os.environ.get("JNA_JAR", "/usr/share/java/jna.jar")
    folder.mkdir()
    jar = folder / "yuntabek-cvss.jar"
    run([ROOT / "bindings/java/build", jar, f"linux-x86-64={OUT / 'libcvss.so.2'}"])
    pages = (PAGE, FROM["JAVA"])
    assert all(blocks(page, "java") for page in pages), "a page has no example of Java"
    for block in (block for page in pages for block in blocks(page, "java")):
        body = f"import example.yuntabek.cvss.*;\n\nclass Main {{\npublic static void main(String[] words) {{\n{block}}}\n}}\n"
        (folder / "Main.java").write_text(body)
        run(["javac", "-Xlint:all", "-cp", jar, "Main.java"], cwd=folder)
        check(run(["java", "-cp", f".:{jar}:{jna}", "Main"], cwd=folder), expected(block, "// "), block)


def try_javascript():
    """In a folder that has the package and nothing else."""
    folder = FOLDER / "js_example"
    (folder / "node_modules").mkdir(parents=True)
    (folder / "node_modules/cvss-proved").symlink_to(ROOT / "bindings/js")
    pages = (PAGE, (ROOT / "bindings/js/README.md").read_text())
    assert all(blocks(page, "js") for page in pages), "a page has no example of JavaScript"
    for block in (block for page in pages for block in blocks(page, "js")):
        (folder / "example.mjs").write_text(block)
        check(run(["node", "--preserve-symlinks", "example.mjs"], cwd=folder), expected(block, "// "), block)


def write_list():
    """The list `vectors` of the recipes: more than two blocks of four million bytes."""
    stored = (ROOT / "crates/test_vectors/stdin").read_bytes().splitlines()
    million = 1_000_000 * b"x"
    pieces = []
    for _ in range(9):
        pieces += [*stored, million, *EDGES]
    # the last line is ended by nothing
    (FOLDER / "vectors").write_bytes(b"\n".join(pieces) + b"\nAV:N")


def printed_for_list(*command):
    """What a program prints for the list."""
    with open(FOLDER / "vectors", "rb") as lines:
        done = subprocess.run(command, stdin=lines, stdout=subprocess.PIPE)
    assert done.returncode in (0, 1), f"status {done.returncode}: {command}"
    return done.stdout


def try_dask():
    """The dask bag prints what the program over the C library does: of odd lines too, in which `cvss score` drops blanks and
    shows control characters by escapes."""
    python = python_with("dask.bag", "the example of dask")
    if python is None:
        return
    (FOLDER / "recipe.py").write_text(block_with("from dask", "python"))
    wanted = printed_for_list(OUT / "lines")
    printed = run([python, "recipe.py"], env=python_environment())
    assert printed == wanted, "the lines of the dask bag are not those of the program"
    print("dask: the lines are those of the program alone")


def try_parallel():
    program = ROOT / "crates/cvss_tool/out"
    if not (program / "cvss_tool").exists():
        skip("the example of GNU parallel", "cvss_tool is not built")
        return
    if not has("parallel", "the example of GNU parallel"):
        return
    recipe = block_with("parallel --pipe").strip()
    assert recipe.count("cvss_tool < vectors > answers") == 1, recipe
    environment = {**os.environ, "PATH": f"{program}:{os.environ['PATH']}"}
    done = subprocess.run(recipe, shell=True, cwd=FOLDER, env=environment)
    answers = printed_for_list(program / "cvss_tool")
    assert (FOLDER / "answers").read_bytes() == answers, "the answers of GNU parallel are others than the program's"
    count = recipe.replace("cvss_tool < vectors > answers", "'cat > /dev/null; echo' < vectors")
    number = len(run(count, shell=True).splitlines())
    assert number > 2 and done.returncode == number, f"{number} blocks, and status {done.returncode}"
    print(f"GNU parallel: the answers are those of the program alone, and the status that of {number} blocks")


def try_first_commands():
    """The first commands of README.md, with release files and with the kit, answer as the second implementation does."""
    readme = (ROOT / "README.md").read_text()
    unpacking = block_with("tar -xJf", page=readme)
    assert unpacking.count("/tmp") == 2, unpacking
    compiling = re.findall(r"`(\(cd crates/cvss_tool && rt try [^`]*)`", readme)
    assert len(compiling) == 1, "README.md has no command of rt try"
    listed = (ROOT / "examples/vectors").read_text()
    asked = "".join(f"{vector}\n" for vector in re.findall(r"(?:score|echo) (\S+)", unpacking))
    assert "cvss score CVSS:3.1/" in unpacking and f"echo {LINE} | cvss_tool" in unpacking, unpacking
    for command, lines in ((unpacking.replace("/tmp", str(FOLDER)), asked + listed), (compiling[0], listed)):
        wanted = run([sys.executable, "-B", ROOT / "reference/reference.py"], input=lines.encode()).decode()
        done = subprocess.run(["bash", "-e", "-c", command], cwd=ROOT, stdout=subprocess.PIPE, stderr=subprocess.PIPE)
        check(done.stdout, wanted, command)
        assert done.returncode == 1, f"status {done.returncode}: {command}"
    last = done.stderr.decode().splitlines()[-1]
    assert last.startswith("run=ended status=1") and last.endswith("proved=no"), f"the last line of `rt try` is {last!r}"


def linked_programs():
    """The built programs, by the commands that they are installed as, in a folder that is returned with them."""
    rows = [row.split() for row in (ROOT / "release/programs").read_text().splitlines() if row[0] != "#"]
    programs = {command: ROOT / f"crates/{crate}/out/{crate}" for crate, command in rows}
    folder = FOLDER / "programs"
    folder.mkdir()
    for command, program in programs.items():
        (folder / command).symlink_to(program)
    return programs, folder


def try_programs():
    """The examples of README.md and of the pages of the programs that begin with a `$`: each prints what is below it."""
    programs, folder = linked_programs()
    environment = {**os.environ, "PATH": f"{folder}:{os.environ['PATH']}"}
    pages = ((ROOT / "README.md").read_text(), PROGRAMS)
    found = [block for page in pages for block in blocks(page, "") if block.startswith("$ ")]
    examples = [example for block in found if "audit csaf.json" not in block for example in re.split(r"(?m)^\$ ", block)[1:]]
    for name in ("cvss", "cvss find", "cvss audit", "cvss triage"):
        assert any(re.search(rf"\| {name}\b", example) for example in examples), f"no example of {name}"
    for example in examples:
        command, _, wanted = example.partition("\n")
        missing = [name for name, path in programs.items() if re.search(rf"\b{name}\b", command) and not path.exists()]
        if missing:
            skip(f"the example `{command}`", f"{missing[0]} is not built")
            continue
        done = subprocess.run(["bash", "-c", command], cwd=ROOT, env=environment, stdout=subprocess.PIPE)
        check(done.stdout, wanted, example)
    if programs["cvss"].exists():
        block = block_with('"macroVector"', page=PROGRAMS)
        explained = run([programs["cvss"], "explain", "--json", json.loads(block)["vector"]])
        check(explained, block.replace("\n", "") + "\n", block)


# vectors with their scores by the scale of the standard
AGREEING = '{"vectorString":"CVSS:3.1/AV:N/AC:L/PR:N/UI:N/S:U/C:H/I:H/A:H","baseScore":9.8}'
DIFFERING = '{"vectorString":"CVSS:3.1/AV:N/AC:L/PR:N/UI:N/S:U/C:H/I:H/A:N","baseScore":9.1,"baseSeverity":"HIGH"}'
V4 = "CVSS:4.0/AV:N/AC:L/AT:N/PR:N/UI:N/VC:N/VI:N/VA:N/SC:N/SI:N/SA:N"


def audit_environment():
    """That of a shell that finds cvss and jq; none where these are not on the machine."""
    if not (ROOT / "crates/cvss_command/out/cvss_command").exists():
        skip("the examples of cvss audit", "it is not built")
        return None
    if not has("jq", "the examples of cvss audit"):
        return None
    return {**os.environ, "PATH": f"{FOLDER / 'programs'}:{os.environ['PATH']}"}


def try_job(environment):
    """The recipe of a job, with a document that disagrees, one that is rejected and one that is right."""
    block = block_with("audit csaf.json", page=PROGRAMS)
    recipe = block.splitlines()[0].removeprefix("$ ")
    for score, status, wanted in (
        (DIFFERING, 1, "".join(block.splitlines(keepends=True)[1:])),
        ('{"vectorString":"AV:N"}', 1, None),
        (AGREEING, 0, ""),
    ):
        (FOLDER / "csaf.json").write_text(f'{{"vulnerabilities":[{{}},\n{{"cve":"CVE-2024-0002","scores":[{{"cvss_v3":{score}}}]}}]}}')
        done = subprocess.run(["bash", "-c", recipe], cwd=FOLDER, env=environment, stdout=subprocess.PIPE)
        assert done.returncode == status, f"status {done.returncode}, and not {status}, over {score}: {recipe}"
        if wanted is None:
            assert b" error: " in done.stdout, f"{done.stdout} rejects nothing: {recipe}"
        else:
            check(done.stdout, wanted, recipe)


def try_nulls(environment):
    """A vector of null, as GitHub's GraphQL has it where there is none, is passed over; another value is not."""
    for score, status in (('{"score":0,"vectorString":null}', 0), ('{"score":0,"vectorString":7}', 1), (AGREEING, 0)):
        given = f'{{"nodes":[{{"cvss":{score}}},{{"cvss":{AGREEING}}}]}}'.encode()
        done = subprocess.run(["cvss", "audit", "--json"], input=given, stdout=subprocess.PIPE, env=environment)
        assert done.returncode == status, f"status {done.returncode}, and not {status}, over {score}"


def try_base_scores(environment):
    """The recipe that drops a score of the base metrics next to a v4.0 vector that has others."""
    block = block_with("del(", page=PROGRAMS)
    with_threat = {"vectorString": f"{V4}/E:U/MVC:H", "baseScore": 0.0}
    for record, status in ((with_threat, 0), ({"vectorString": f"{V4}/E:X/R:U/RE:L", "baseScore": 5.0}, 1)):
        (FOLDER / "record.json").write_text(json.dumps({"metrics": [record, {"vectorString": f"{V4}/MSI:S"}]}))
        done = subprocess.run(block, shell=True, cwd=FOLDER, env=environment, stdout=subprocess.PIPE)
        assert done.returncode == status, f"status {done.returncode}, and not {status}, over {record}: {block}"
        given = json.dumps(record).encode()
        alone = subprocess.run(["cvss", "audit", "--json"], input=given, stdout=subprocess.PIPE, env=environment)
        assert alone.returncode == 1, f"{record} does not differ"


def check_figures():
    """Each line of the table of instructions has a figure of the crate."""
    lines = PERFORMANCE.split("## Instructions a line\n")[1].split("\n## ")[0]
    rows = [line for line in lines.splitlines() if line.startswith("| ")]
    assert len(rows) > 8 and not [row for row in rows if row.endswith("| |")], "a line has no figure of the crate"


def try_removal():
    """The page's commands remove what is installed, also what only ./install puts there."""
    home = FOLDER / "home"
    run(["bindings/install", home / ".local"], cwd=ROOT)
    block = block_with("rm -f")
    programs = re.findall(r"^\w+ (\w+)$", (ROOT / "release/programs").read_text(), re.M)
    libraries = re.findall(r'"\$built/(\S+)" "\$prefix/lib/"', (ROOT / "release/stage").read_text())
    folders = {"cvss": "bash-completion/completions", "_cvss": "zsh/site-functions", "cvss.fish": "fish/vendor_completions.d"}
    completions = [f"share/{folders[path.name]}/{path.name}" for path in (ROOT / "bindings/completion").iterdir()]
    assert programs and libraries and completions
    for name in (*(f"bin/{program}" for program in programs), *(f"lib/{library}" for library in libraries), *completions):
        assert f"{name} " in block, f"{name} is not taken away"
        (home / ".local" / name).parent.mkdir(parents=True, exist_ok=True)
        (home / ".local" / name).touch()
    removal = "\n".join(line for line in block.splitlines() if not line.startswith("pip "))
    run(removal, shell=True, env={**os.environ, "HOME": str(home)})
    left = [path for path in home.rglob("*") if not path.is_dir() or path.is_symlink()]
    assert not left, left


def words_of(page, column):
    """The words in back ticks in a column of a page's table."""
    rows = [row.split("|") for row in page.splitlines() if row.startswith("| ")][1:]
    assert rows, "a page has no table"
    return set(re.findall(r"\w+", " ".join(re.findall(r"`(.*?)`", " ".join(row[column] for row in rows)))))


def check_names():
    """The tables for users of other packages name what exists, and that for the crate each public name."""
    names = (ROOT / "tests/stored/crate_names").read_text().split()
    missing = [name for name in names if name not in words_of(FROM["RUST"], 1)]
    assert names and not missing, f"docs/RUST.md has no row for {missing}"
    for page, sources, others in (
        ("RUST", "rust/src/*.rs", {"serde", "format", "N", "E", "A"}),
        ("GO", "go/*.go", {"8", "9"}),
        ("JAVA", "java/src/main/java/example/yuntabek/cvss/*.java", {"valueOf"}),
    ):
        text = "".join(path.read_text() for path in (ROOT / "bindings").glob(sources))
        unknown = [name for name in words_of(FROM[page], 2) - others if not re.search(rf"\b{name}\b", text)]
        assert not unknown, f"docs/{page}.md: there is no {unknown}"


# What the code in the tables of Python's page is about, and how it is run.
PYTHON_ROWS = """
import sys
from decimal import Decimal
from cvss_proved import *
vector = Vector("CVSS:3.1/AV:N/AC:L/PR:N/UI:N/S:U/C:H/I:H/A:H/E:U/RL:X")
v4 = Vector("CVSS:4.0/AV:N/AC:L/AT:N/PR:N/UI:N/VC:L/VI:H/VA:N/SC:N/SI:N/SA:N/E:P")
text, texts, vectors, other, chosen = vector.text, [vector.text], [v4, vector], v4, vector.metrics
try:
    Vector("")
except CvssError as rejected:
    error = rejected
for code in sys.argv[1:]:
    try:
        eval(code)
    except Exception as failed:
        sys.exit(f"{code}: {failed!r}")
"""
# What is no code there.
PYTHON_WORDS = {"X", "ND", "high", "severity", "libcvss.so.2", "cvss-calculator", "--allow-incomplete"}


def check_python_rows():
    """All code in the last column of the tables for those who come to Python's package runs."""
    cells = [row.split("|")[2] for row in FROM["PYTHON"].splitlines() if row.startswith("| ")]
    code = [code for cell in cells for code in re.findall(r"`(.*?)`", cell) if code not in PYTHON_WORDS]
    assert len(code) > 40, f"the tables have {len(code)} pieces of code"
    run([sys.executable, "-c", PYTHON_ROWS, *code], env=python_environment())


def first_column(heading, page=PAGE):
    """The first column of the table below a heading."""
    section = page.split(f"\n## {heading}\n", 1)[1].split("\n## ", 1)[0]
    return " ".join(row.split("|")[1] for row in section.splitlines() if row.startswith("| "))


def check_project():
    """The page explains the names of this project, and what each command that installs needs."""
    names = first_column("Names")
    for name in ("Yuntabek", "`cvss`", "`cvss_proved`", "`libcvss`", "`cvss.so`", "`share/yuntabek`"):
        assert name in names, f"the table of names has no {name}"
    commands = first_column("Install")
    for command in ("bindings/build", "bindings/install PREFIX [LIBDIR]", "./install PREFIX", "pip install ./bindings/python"):
        assert f"`{command}`" in commands, f"the table of commands has no {command}"
    assert "The Rattle kit is not in this repository" in PAGE, "the page says not where the Rattle kit comes from"
    leads = re.findall(r"\[docs/BINDINGS.md\]\(docs/BINDINGS.md\) says ([^.]*)", (ROOT / "README.md").read_text())
    for name in ("the kit", "uninstall", "Yuntabek", "`cvss_proved`", "`libcvss`", "`share/yuntabek`"):
        assert name in " ".join(leads), f"README.md says not where {name} is told of"


def check_properties():
    """The properties that the page of Python lists are those of `Vector`."""
    listed = re.findall(r"^`Vector` has the properties (.*?) \(a dict\)", PAGE, re.M)
    assert listed, "the page names no properties"
    names = set(re.findall(r"`(\w+)`", listed[0]))
    asked = "from cvss_proved import Vector as V; print(*(n for n in vars(V) if isinstance(vars(V)[n], property) and n[0] != '_'))"
    own = set(run([sys.executable, "-c", asked], env=python_environment()).decode().split())
    assert names == own, f"the page names {names - own}, which are no properties, and does not name {own - names}"


def main():
    check_names()
    check_project()
    check_figures()
    if has("rt", "the first commands of README.md"):
        try_first_commands()
    try_programs()
    environment = audit_environment()
    if environment:
        try_job(environment)
        try_base_scores(environment)
        try_nulls(environment)
    try_python()
    check_python_rows()
    check_properties()
    if has("cc", "the example of C"):
        try_c()
        try_removal()
    if has("cargo", "the example of Rust"):
        try_rust()
    if has("go", "the example of Go"):
        try_go()
    if has("javac", "the examples of Java"):
        try_java()
    if has("node", "the example of JavaScript"):
        try_javascript()
    write_list()
    try_dask()
    try_parallel()
    print("Documents: the examples print what they say")


if __name__ == "__main__":
    main()
