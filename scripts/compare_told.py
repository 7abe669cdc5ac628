"""What reference/ told of files against another program."""
import subprocess

from implementation import expected, expected_listing
from digest import digest


def verdict_differs(program, name, told):
    """Whether the program's verdict or journal is another; each answer counts."""
    text, journal = expected(program, told.file)
    wrong = []
    if text.encode() != told.verdict:
        wrong.append("verdict")
    if told.journal is not None and digest(journal) != told.journal:
        wrong.append("journal")
    return wrong, 1 + (told.journal is not None)


def listing_differs(program, name, told):
    return ["listing"] if expected_listing(program, told.file) != told.listing else []


def error_of(program, file):
    """The number of the error that the program tells for a file, 0 for none."""
    first = expected(program, file)[0].split("\n")[0].split()
    return int(first[1]) if first[0] == "refused" else 0


def compare(program, told, read):
    """Compares all: prints each difference, and how many answers there were. The number of differences."""
    answers, missing, differences = 0, [], []
    for name, one in told.items():
        wrong, asked = verdict_differs(program, name, one)
        answers += asked
        differences += [(name, what) for what in wrong]
        if one.listing is None:
            continue
        try:
            differences += [(name, what) for what in listing_differs(program, name, one)]
            answers += 1
        except subprocess.TimeoutExpired:
            missing.append(name)
    for name, file, error in read:
        answers += 1
        if error_of(program, file) != error:
            differences.append((name, "error"))
    for name, what in differences:
        print("%s: another %s" % (name, what))
    print("%d answers compared, %d differences" % (answers, len(differences)))
    if missing:
        print("%d listings not given in time: %s" % (len(missing), ", ".join(missing)))
    return len(differences)
