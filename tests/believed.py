"""Counts what must be believed of the nine calls: the definitions that their propositions cite, directly or through
other definitions, by file, and their lines without comments and imports. A definition in specs/code/, or one without a
comment directly above it, is an error. Types declared in src/ and definitions of the library are not counted."""
import collections
import pathlib
import re
import sys

CRATES = pathlib.Path(__file__).resolve().parent.parent / "crates"
PROPOSITIONS = [("outline", "EitherReading", "IsEitherReading"), ("outline", "Reading", "IsReading"),
                ("edit", "Removal", "IsRemoval"), ("edit", "Insertion", "IsInsertion"),
                ("hull", "Call", "IsHullAnswer"), ("nearest", "Call", "IsNearestAnswer"),
                ("hausdorff", "Call", "IsComparison"), ("mismatch", "Call", "IsMismatchAnswer"),
                ("records", "Call", "IsRecordsComparison")]
DEFINITION = re.compile(r" *(?=(?:pub )?(?:unfoldable|abbrev|data|record) )(?:(?:unfoldable|abbrev|pub|data|record) )+(\S+)"
                        r"(?: [({][^)}]*[)}])* :(?: |$)")
IMPORT = re.compile(r"use Rattle\.((?!std\b)\w+)\.specs\.([\w.]+)\.\{([^}]*)\}")


def read(crate, module):
    """The lines of each definition of a file, what it imports, and the definitions without a comment above them."""
    lines, imports, bare, name, above = {}, {}, set(), None, ""
    path = CRATES / crate / "specs" / (module.replace(".", "/") + ".antt")
    for line in path.read_text(encoding="utf-8").splitlines():
        found = DEFINITION.match(line)
        if line.startswith("use "):
            for crate_of, module_of, names in IMPORT.findall(line):
                if not module_of.startswith("declared"):
                    imports.update((n.strip(), (crate_of, module_of, n.strip())) for n in names.split(","))
        elif found:
            name = found[1]
            lines[name] = [line]
            if not above.strip().startswith("--"):
                bare.add(name)
        elif name and line.strip() and not line.strip().startswith("--") and not line.startswith("infix"):
            lines[name].append(line)
        above = line
    return lines, imports, bare


def main():
    files, todo, seen, errors = {}, list(PROPOSITIONS), set(), []
    while todo:
        key = crate, module, name = todo.pop()
        if key in seen:
            continue
        seen.add(key)
        if (crate, module) not in files:
            files[crate, module] = read(crate, module)
        lines, imports, bare = files[crate, module]
        if module.startswith("code") or name in bare:
            errors.append(key)
        for word in set(re.findall(r"[^\s(){};,.λ]+", "\n".join(lines[name]))):
            for cited in (word, "◌%s◌" % word):
                if cited in lines:
                    todo.append((crate, module, cited))
                elif cited in imports:
                    todo.append(imports[cited])
    count = collections.Counter()
    for crate, module, name in seen:
        count[crate, module] += len(files[crate, module][0][name])
    for crate, module in sorted(count):
        names = sorted(n for c, m, n in seen if (c, m) == (crate, module))
        print("%-24s %3d  %s" % (crate + "/" + module, count[crate, module], " ".join(names)))
    print("%d definitions, %d lines" % (len(seen), sum(count.values())))
    for error in errors:
        print("not to be cited, or without a comment:", *error)
    sys.exit(bool(errors))


if __name__ == "__main__":
    main()
