#!/usr/bin/env bash
# What is written for readers: that links and named files are there, that lines have at most 100
# columns, that nothing outside the repository is cited, that the pages of man/ lint (where mandoc
# is installed), that the tables of refusals and of codes are the program's, and that each frame
# that is shown is one. Ends with 'N passed, M failed'.
#
#   usage: tests/docs.sh
set -u
here=$(cd "$(dirname "$0")/.." && pwd)
cd "$here" || exit 1
passed=0
failed=0

run() { # WORD..: a check whose last line is 'N passed, M failed'
  local last
  "$@" > "$work"
  last=$(tail -n 1 "$work")
  if [[ $last =~ ^([0-9]+)\ passed,\ ([0-9]+)\ failed$ ]]; then
    passed=$((passed + BASH_REMATCH[1]))
    failed=$((failed + BASH_REMATCH[2]))
    head -n -1 "$work"
  else
    failed=$((failed + 1))
    cat "$work"
    echo "FAILED: $* didn't come to its end"
  fi
}
work=$(mktemp)
trap 'rm -f "$work"' EXIT

run python3 - <<'PY'
import glob, os, re

texts = sorted(glob.glob("*.md") + glob.glob("docs/*.md") + glob.glob("examples/**/*.md",
    recursive=True) + glob.glob("docs/*.txt"))
pages = sorted(glob.glob("man/*.[157]"))
scripts = sorted(glob.glob("contrib/*") + glob.glob("examples/*.sh") + glob.glob("man/*.py")
    + ["tests/docs.sh", "tests/contrib.sh", "tests/readme.py", "tests/sites.py", "tests/codes.py",
       "tests/wire.py", "tests/frames.py", "tests/runs.py", "Makefile", "bench/serving.sh",
       "bench/hits.sh", "bench/hits.c", "bench/wrapping.sh", "bench/picture.py", "bench/wire.sh"])
sources = sorted(glob.glob("examples/*/*"))
counts = [0, 0]


def hold(true, what):
    counts[not true] += 1
    if not true:
        print("FAILED:", what)


def anchors(file):
    """The names under which the headings of a text can be linked."""
    heads = re.findall(r"^#+ (.*)$", open(file, encoding="utf-8").read(), re.M)
    return {re.sub(r"[^\w\- ]", "", h.lower()).replace(" ", "-") for h in heads}


for file in texts:
    text = open(file, encoding="utf-8").read()
    plain = re.sub(r"^(    |```).*$", "", text, flags=re.M)
    for link in re.findall(r"\]\(([^)\s]+)\)", plain):
        if re.match(r"\w+:", link):
            continue
        name, _, anchor = link.partition("#")
        target = os.path.normpath(os.path.join(os.path.dirname(file), name)) if name else file
        hold(os.path.exists(target), f"{file} links to {link}, which isn't there")
        if anchor and os.path.isfile(target):
            hold(anchor in anchors(target), f"{file} links to {link}: no such heading")

# Files that are named by their path from the top.
named = r"(?<![\w/.@$-])((?:tests|bench|docs|examples|contrib|man|crates)/[\w./+-]*[\w/])"
for file in texts + pages + scripts:
    for name in set(re.findall(named, open(file, encoding="utf-8").read())):
        if "/out" in name or re.search(r"/[A-Z]+(/|$)", name):
            continue # built, or a name that stands for others
        hold(os.path.exists(name), f"{file} names {name}, which isn't there")

# Lines. A row of a table and what a program prints may be longer.
for file in texts + pages + scripts + sources:
    if not os.path.isfile(file) or file.endswith("/expected"):
        continue
    lines = open(file, encoding="utf-8").read().split("\n")
    long = [n + 1 for n, line in enumerate(lines) if len(line) > 100 and not line.startswith("|")]
    hold(not long, f"{file} has more than 100 columns in the lines {long}")

# The numbers and words of what the repository grew from: a letter and digits, but for the names of
# refusals and registers, and what is called a paper.
cited = re.compile(r"\b(?:[RWDT][1-9]\d?\b(?!_)|[Pp]apers?\b|row \d+\b)")
for file in texts + pages + scripts + sources:
    if os.path.isfile(file) and file not in ("tests/docs.sh",):
        found = sorted(set(cited.findall(open(file, encoding="utf-8").read())))
        hold(not found, f"{file} cites {found}")
print(f"{counts[0]} passed, {counts[1]} failed")
PY

run tests/codes.py
run tests/wire.py
run man/refusals.py check
run bench/picture.py check
run docs/house.py check

if command -v mandoc > /dev/null; then
  for page in man/*.[157]; do
    said=$(mandoc -Tlint "$page" 2> /dev/null | grep -v 'referenced manual not found')
    if [ -z "$said" ]; then
      passed=$((passed + 1))
    else
      failed=$((failed + 1))
      echo "FAILED: $said"
    fi
  done
else
  echo "mandoc isn't installed: the pages are not linted"
fi

echo "$passed passed, $failed failed"
[ $failed -eq 0 ]
