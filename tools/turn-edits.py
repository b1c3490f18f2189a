#!/usr/bin/env python3
"""Turns the must-fail edits of a commit in the older spelling to today's, by port.py and respell-names.py themselves.

usage: tools/turn-edits.py COMMIT [SCRATCH]            at the top of the repository; writes crates/*/must-fail/*.edit

In a scratch clone of COMMIT it puts, beside each file that an edit names, that file with the edit's first pair applied, with its first two, and so on.
Then port.py and respell-names.py turn all of them alike, and a pair is written anew from the lines in which the turned file differs from the one before it.
An `old:` must stand once in the file as it is here. Where it doesn't, or where lines were broken otherwise, nothing is written, and the edit is listed
with its turned lines, to be written by hand. A SCRATCH that stands already is taken as turned.

By hand after it: charts/miss_of_the_buffer (blanks inside `[ .. ]`), link/one_class_further (`suc` is not in scope there), and player/refused_action_printed,
routes/one_short, runfile/refused_write_writes and turns/waits_for_all, whose conditions gave a goal another name.
"""
import difflib
import glob
import os
import re
import subprocess
import sys
import tempfile

PORT = "/opt/rattle/port/port.py"


def read(path):
    with open(path, encoding="utf-8") as f:
        return f.read()


def write(path, text):
    with open(path, "w", encoding="utf-8") as f:
        f.write(text)


def parts(text):
    """The comment lines of an edit, and its pairs: (file, old, new)."""
    notes, pairs, path, old = [], [], None, None
    for line in text.splitlines():
        key, _, rest = line.partition(": ")
        if key == "file":
            path = rest
        elif key == "old":
            old = rest
        elif key == "new":
            pairs.append((path, old, rest))
        else:
            notes.append(line)
    return notes, pairs


def variant(path, tag):
    stem, ending = os.path.splitext(path)
    return f"{stem}{'_v' if ending == '.rt' else 'V'}{tag}{ending}"


def tags(edits):
    """For each edit and each of its pairs: the crate's folder, the file, the tags of the texts before and after it."""
    n = 0
    for edit in edits:
        last = {}
        for path, old, new in parts(read(edit))[1]:
            n += 1
            yield edit, os.path.dirname(os.path.dirname(edit)), path, last.get(path), f"{n:04}", old, new
            last[path] = f"{n:04}"


def at(folder, path, tag):
    return os.path.join(folder, variant(path, tag) if tag else path)


def turn(commit, scratch):
    here = os.getcwd()
    subprocess.run(["git", "clone", "-q", here, scratch], check=True)
    subprocess.run(["git", "checkout", "-q", "-B", "variants", commit], cwd=scratch, check=True)
    os.chdir(scratch)
    for edit, folder, path, before, after, old, new in tags(sorted(glob.glob("crates/*/must-fail/*.edit"))):
        text = read(at(folder, path, before))
        if text.count(old) != 1:
            sys.exit(f"{edit}: stands {text.count(old)} times: {old}")
        write(at(folder, path, after), text.replace(old, new))
    for words in (["git", "add", "-A"], ["git", "-c", "user.name=x", "-c", "user.email=x@x", "commit", "-qm", "variants"], ["python3", PORT]):
        subprocess.run(words, check=True)
    subprocess.run(["python3", os.path.join(here, "tools", "respell-names.py")], check=True, stdout=subprocess.DEVNULL)
    os.chdir(here)


def hunks(a, b):
    a, b = a.splitlines(), b.splitlines()
    return [(a[i:j], b[k:l]) for op, i, j, k, l in difflib.SequenceMatcher(None, a, b, False).get_opcodes() if op != "equal"]


def one_line(lines):
    text = lines[0] + "".join(" " + x.strip() for x in lines[1:])
    return re.sub(r", }", " }", re.sub(r",? ([)\]])", r"\1", re.sub(r"([(\[]) ", r"\1", text)))


def pairs_of(found, text):
    """The pairs that make the change in text, or None."""
    out = []
    for old, new in found:
        if len(old) == 1 and new:
            new = [one_line(new)]
        if len(old) != len(new):
            return None, text
        for o, n in zip(old, new):
            if o == n:
                continue
            if text.count(o) != 1:
                return None, text
            out.append((o, n))
            text = text.replace(o, n)
    return out, text


def main():
    commit, scratch = sys.argv[1], sys.argv[2] if len(sys.argv) > 2 else os.path.join(tempfile.mkdtemp(prefix="edits-"), "clone")
    if not os.path.isdir(scratch):
        turn(commit, scratch)
    edits = sorted(glob.glob("crates/*/must-fail/*.edit", root_dir=scratch))
    here = os.getcwd()
    os.chdir(scratch)
    steps = list(tags(edits))
    os.chdir(here)
    byhand = 0
    for edit in edits:
        lines, now, named, found = parts(read(os.path.join(scratch, edit)))[0], {}, None, []
        good = True
        for _, folder, path, before, after, _, _ in (s for s in steps if s[0] == edit):
            here_at = os.path.join(folder, path)
            change = hunks(read(os.path.join(scratch, at(folder, path, before))), read(os.path.join(scratch, at(folder, path, after))))
            found.append((path, change))
            made, now[path] = pairs_of(change, now.get(path) or read(here_at))
            if not made:
                good = False
                continue
            if path != named:
                lines.append(f"file: {path}")
                named = path
            for o, n in made:
                lines += [f"old: {o}", f"new: {n}"]
        if good:
            os.makedirs(os.path.dirname(edit), exist_ok=True)
            write(edit, "\n".join(lines) + "\n")
            continue
        byhand += 1
        print(f"by hand: {edit}")
        for path, change in found:
            for old, new in change:
                print(f"  {path}", *("  - " + x for x in old), *("  + " + x for x in new), sep="\n")
    print(f"{len(edits)} edits, {byhand} by hand")


if __name__ == "__main__":
    main()
