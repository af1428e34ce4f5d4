"""What is compared: the examples, a program for each word, the sources of the repository's tests, and sessions of the interactive Forth."""
import os
import re

HERE = os.path.dirname(os.path.abspath(__file__))
ROOT = os.path.dirname(HERE)


def bytes_in(text):
    """The bytes of a field of the tests: `_` is a blank, `~` a line feed, and `^` begins two digits."""
    pieces = text.encode().replace(b"_", b" ").replace(b"~", b"\n").split(b"^")
    return pieces[0] + b"".join(bytes((int(piece[:2], 16),)) + piece[2:] for piece in pieces[1:])


def sources_of_tests():
    """Sources of the repository's tests, with their input: lines of tables that define MAIN, and phrases."""
    found = {}
    folder = ROOT + "/crates/j1_workbench/src/tests"
    for name in sorted(os.listdir(folder)):
        with open(folder + "/" + name, encoding="utf-8") as f:
            for number, line in enumerate(f, 1):
                fields = [field.strip() for field in line.split("|")]
                if len(fields) < 2:
                    continue
                at = [i for i, field in enumerate(fields) if re.search(r":[ _~]+MAIN\b", field, re.I)]
                try:
                    if at:
                        source, console = bytes_in(fields[at[0]]), bytes_in((fields + [""])[at[0] + 1])
                    elif name == "phrases.rt" and fields[0] and not fields[0].startswith("/"):
                        cells = len(fields[1].split())
                        source = bytes_in(": MAIN " + fields[0] + " ." * cells + " ;")
                        console = bytes_in((fields + [""] * 4)[3])
                    else:
                        continue
                except (ValueError, UnicodeEncodeError):
                    continue
                found.setdefault((source, console), "%s:%d" % (name, number))
    return [(where, source, console) for (source, console), where in found.items()]


def sources_of_programs():
    """The lines of programs.txt: words, a bar, a source, and where it takes input a bar and the input."""
    found = []
    with open(HERE + "/programs.txt") as f:
        for line in f:
            if "|" in line:
                fields = [field.strip() for field in line.split("|")]
                found.append(("programs.txt " + fields[0], fields[1].replace("~", "\n").encode(), bytes_in((fields + [""])[2])))
    return found


def words_of_code():
    """The words of docs/WORDS.md that stand in definitions."""
    found = []
    with open(ROOT + "/docs/WORDS.md") as f:
        for line in f:
            row = re.match(r"\| `(.+?)` \| (inline|library|structure) \|", line)
            if row and row.group(1) != "GO":
                found.append(row.group(1))
    return found


def built(program, folder, sources):
    """The name, the image file, the input and the source of each of those sources that is compiled."""
    made = []
    for name, source, console in sources:
        with open(folder + "/source.fs", "wb") as f:
            f.write(source)
        done = program.call(["build", folder + "/source.fs", folder + "/source.img"])
        if done.returncode == 0:
            with open(folder + "/source.img", "rb") as f:
                made.append((name, f.read(), console, source))
    return made


def typed_lines():
    """What is typed in the sessions of the repository's tests, and the replies, and the example's."""
    typed, replies = b"", b""
    with open(ROOT + "/crates/j1_workbench/src/tests/sessions.rt", encoding="utf-8") as f:
        text = f.read()
    for name in ("WORDS", "REFUSALS"):
        table = re.search(r'const %s: &str = r#"\n(.*?)\n"#;' % name, text, re.S).group(1)
        one, two = b"", b""
        for line in table.split("\n"):
            left, _, right = line.partition("|")
            one += bytes_in(left.strip()) + b"\n"
            two += bytes_in(right.strip()) + b"\n"
        yield name, one, two
    with open(ROOT + "/examples/session.fs", "rb") as f:
        yield "examples/session.fs", f.read(), None


def examples(program, folder):
    """The name, the image file, the input and the most instructions of each example."""
    sources, made = [], []
    for name in sorted(os.listdir(ROOT + "/examples")):
        path = ROOT + "/examples/" + name
        if name.endswith(".fs") and name != "session.fs":
            with open(path, "rb") as f:
                sources.append((name, f.read(), b"abc\n"))
        elif name.endswith((".asm", ".lst")):
            done = program.call(["asm", path, folder + "/source.img"])
            if done.returncode == 0:
                with open(folder + "/source.img", "rb") as f:
                    made.append((name, f.read(), b"", 5000 if name.endswith(".lst") else 10000000))    # the listing prints without an end
    return [(name, data, console, 10000000) for name, data, console, _ in built(program, folder, sources)] + made
