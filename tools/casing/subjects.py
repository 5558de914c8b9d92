"""The folders of cases, and what their lists of cases say."""
import re

from casing.cases import Reader, Refused, lines_of

LIST = "CASES"
ENDING = re.compile(r"case|in|out|errors|audit|served\.in|(?:peer)?[1-9][0-9]*\.(?:in|out)")


def told_in(folder):
    """The names that the list of a folder has, each with a sentence."""
    told = {}
    for line in lines_of((folder / LIST).read_text().rstrip("\n")):
        name, colon, sentence = line.partition(": ")
        if not colon or not sentence.strip():
            raise Refused(f"{folder.name}/CASES: no sentence: {line}")
        if name in told:
            raise Refused(f"{folder.name}/CASES: twice: {name}")
        told[name] = sentence
    return told


def named_in(folder):
    """The names of the cases that have files in a folder."""
    named = set()
    for path in folder.iterdir():
        name, _, ending = path.name.partition(".")
        if path.name != LIST and not ENDING.fullmatch(ending):
            raise Refused(f"{folder.name}/{path.name}: no such ending")
        named.add(name)
    return named - {LIST}


def refuse_strays(folder, told):
    """Refuses a case without a line, and a line without a case."""
    named = named_in(folder)
    for name in sorted(named - set(told)):
        raise Refused(f"{folder.name}/{name}: no line in CASES")
    for name in sorted(set(told) - named):
        raise Refused(f"{folder.name}/CASES: no such case: {name}")


def cases_in(folder, used):
    """The runs of each case of a folder, by its name."""
    told = told_in(folder)
    refuse_strays(folder, told)
    return {f"{folder.name}/{name}": Reader(folder, name, used).runs() for name in told}


def refuse_unused(folders, used):
    """Refuses a file that no run is made of."""
    for folder in folders:
        for path in sorted(folder.iterdir()):
            if path.name != LIST and path.resolve() not in used:
                raise Refused(f"{folder.name}/{path.name}: no run is made of it")


def all_cases(data):
    """The runs of each case of each folder, by `SUBJECT/NAME`."""
    folders = sorted(path for path in data.iterdir() if path.is_dir())
    cases, used = {}, set()
    for folder in folders:
        if not (folder / LIST).is_file():
            raise Refused(f"{folder.name}: no {LIST}")
        cases.update(cases_in(folder, used))
    refuse_unused(folders, used)
    return cases


def chosen(cases, names):
    """The cases that are named, by SUBJECT or SUBJECT/CASE; all where none is."""
    if not names:
        return cases
    picked = {}
    for name in names:
        found = {key: runs for key, runs in cases.items() if name in (key, key.split("/")[0])}
        if not found:
            raise Refused(f"no such case: {name}")
        picked.update(found)
    return picked
