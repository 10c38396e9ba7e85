"""What the scripts here read of the crates: sources without comments and texts, functions with
their clauses, definition files with their imports. Not a script of its own."""
import re
import sys
from pathlib import Path

sys.dont_write_bytecode = True
ROOT = Path(__file__).resolve().parent.parent
CLAUSE = re.compile(r"\b(requires|ensures)\s*(\w*)\s*$")


def crate_names():
    lines = (ROOT / "crates.txt").read_text().splitlines()
    names = (line.split("#")[0].partition(":")[0].split() for line in lines)
    return [words[0] for words in names if words]


def bare(text):
    """The code without comments and without what is in quotes; lines keep their numbers."""
    kept = lambda found: re.sub(r"[^\n]+", " ", found.group())
    quoted = r'"(?:\\.|[^"\\])*"|\'(?:\\.|[^\'\\])\'|\'\\u\{\w+\}\''
    return re.sub(quoted + r"|//[^\n]*|/\*.*?\*/", kept, text, flags=re.S)


def past(code, at):
    """The index behind the bracket that closes the one at this index."""
    depth = 0
    for index in range(at, len(code)):
        depth += (code[index] in "([{") - (code[index] in ")]}")
        if depth == 0:
            return index + 1
    return len(code)


class Function:
    def __init__(self, path, name, line):
        self.path, self.name, self.line = path, name, line
        self.clauses = []  # (requires or ensures, label or "", text)
        self.body_lines = 0


def functions_of(path):
    code, found = bare(path.read_text()), []
    for start in re.finditer(r"\bfn (\w+)", code):
        function = Function(path, start.group(1), code.count("\n", 0, start.start()) + 1)
        at = last = start.end()
        while at < len(code) and code[at] != ";":
            if code[at] in "([":
                at = past(code, at)
            elif code[at] == "{":
                clause, end = CLAUSE.search(code, last, at), past(code, at)
                if not clause:
                    function.body_lines = code.count("\n", at, end) + 1
                    break
                function.clauses.append((clause.group(1), clause.group(2), code[at:end]))
                at = last = end
            else:
                at += 1
        found.append(function)
    return found


def files(crate, folder, ending):
    return sorted((ROOT / "crates" / crate / folder).rglob("*." + ending))


def imports(text):
    """What `use` lines name of the repository's definitions: (crate, path, names)."""
    begins = r"^\s*(?:pub )?(?:ghost )?(?:open )?use Rattle\."
    line = begins + r"(\w+)\.specs\.([\w.]+?)\.?(?:\{([^}]*)\})?(?: as \w+)?;?\s*$"
    for crate, path, names in re.findall(line, text, re.M):
        yield crate, path, [name.split(" as ")[-1].strip() for name in names.split(",")]
