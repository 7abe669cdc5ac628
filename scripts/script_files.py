"""Scripts of files and problems that are read and written, by the cases of scripts/file_cases.py and scripts/file_errors.py."""
from file_cases import BLOCK, CASES, sample
from file_errors import ERRORS


def sample_name(n, m):
    return "sample-%d-%d" % (n, m)


def all_cases():
    return [case for group in CASES + ERRORS for case in group()]


def sample_files():
    """The sample files that the cases begin with."""
    sizes = sorted({(case.n, case.m) for case in all_cases()} | {start_of(case.n, case.m) for case in all_cases()})
    return [(sample_name(n, m), sample(n, m)) for n, m in sizes]


def start_of(n, m):
    """The sizes of the sample problem from which one of these sizes is made."""
    return max(1, min(n, 32)), min(m, 64)


def set_problem(script, case):
    """The problem of a case: that of a sample file, with its sizes and the case's numbers set."""
    n, m = start_of(case.n, case.m)
    script.do("load %s.plan" % sample_name(n, m), "read")
    sizes = [("n", case.n)] * (n != case.n) + [("m", case.m)] * (m != case.m)
    for numbers in sizes + [numbers for edit in case.edits for numbers in edit.sets]:
        script.do(" ".join(["set"] + [str(z) for z in numbers]))


def write_problem(script, case):
    set_problem(script, case)
    script.do("write %d" % case.write)


def read_file(script, case):
    """Reads the file of a case, and writes what came of it."""
    script.do("load %s.plan" % sample_name(case.n, case.m))
    blocks = []
    for edit in case.edits:
        for command, changes in [("word", edit.words), ("byte", edit.bytes)]:
            for k, at, z in changes:
                blocks += [k] * (k not in blocks)
                script.do("%s %d %d" % (command, BLOCK * k + at, z))
    script.do(*("seal %d %d" % (k, k) for k in blocks))
    for edit in case.edits:
        for k, at in edit.spoiled:
            place = BLOCK * k + at
            script.do("byte %d %d" % (place, (script.player.file[place] + 1) % 256))
        script.do(*("seal %d %d" % seal for seal in edit.seals))
    script.do(*["length %d" % case.read] * (script.player.length != case.read))
    error = script.do("read")[0].split()[1]
    script.do("write %d" % (BLOCK * (1 + min(case.m, 64))))
    return script.player.content(), int(error)


def write_files(script):
    """All cases: the files that were read, each with its case's name and its error."""
    told = []
    for group in CASES + ERRORS:
        script.part("files: " + group.__name__.replace("_", " "))
        for case in group():
            script.say(case.name)
            if case.write is not None:
                write_problem(script, case)
            if case.read is not None:
                told.append((case.name, *read_file(script, case)))
    return told


def check_problems(script):
    """The problems of all cases that are written: checked and opened."""
    for group in CASES + ERRORS:
        script.part("problems in hand: " + group.__name__.replace("_", " "))
        for case in group():
            if case.write is not None:
                script.say(case.name)
                set_problem(script, case)
                script.do("check", "begin")
