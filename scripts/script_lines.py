"""Scripts of lines that cannot be played, each reason from both sides, and of what `play` holds before anything is loaded."""

UNKNOWN = [
    "bogus", " read", "READ", "reads", "loa", "loads plan-a.plan", "read\t", "-1", "5", "put_n 5", "stat", "eac 1 1", "s", "x" * 3000, "say\tno",
]

NO_FIELD = [
    "put", "set", "put ", "put  n 5", "put lowers 0 0 1", "put N 5", "put 5", "put thresholds 0 0", "set conflicts 1", "set status 1", "set number 0 1",
    "set below 0 0 1", "set depth", "put bogus x y z", "set decided 0", "put rows 0 0 0",
]

NO_FILE = ["load", "load ", "load nothing.plan", "load nothing.plan 5", "load plan-a", "load PLAN-A.plan", "load  plan-a.plan"]

NUMBERS = [
    "load plan-a.plan 5", "load plan-a.plan ", "read 1", "read ", "open now", "verdict 0", "solutions 7", "keep 1", "back 1", "state 0", "digest x", "step 1",
    "run 1", "exclude 1", "steps 1", "length", "length ", "length  5", "length 5 ", "length 5 6", "length x", "length 5x", "length x5", "length -",
    "length --5", "length +5", "length 1.5", "length 0x10", "length 5-", "length 18446744073709551616", "length -9223372036854775809", "length " + "9" * 400,
    "byte", "byte 5", "byte 5 x", "byte x 5", "byte 5 6 7", "byte 65537 x", "word 0", "word 0 18446744073709551616", "word 0 -9223372036854775809", "seal 0",
    "seal 0 0 0", "write", "write x", "litter", "litter 1 2", "litter 18446744073709551616", "trace", "trace 512 1", "list", "list 5 5", "each", "each 512",
    "each 512 4 4", "traces", "traces 512 512", "lists", "lists 5 5", "put n", "put n x", "put n 5 6", "put n 18446744073709551616", "put status",
    "put status x", "put status 0 0", "put threshold 5", "put threshold 0 0 0", "put divisor 0", "put number 0", "put row 0 0", "put row 0",
    "put row 0 0 0 0", "put row 128 x 0", "put lower 0 0", "put lower 0 0 x", "put lower 0 0 0 0", "put upper 33 0", "put below 0 0", "put above 0 0",
    "put decided 0", "put decided 0 0 0", "set n", "set n 5 6", "set budget x", "set lower 5", "set upper 5", "set threshold 5", "set divisor 5",
    "set row 0 0", "set row 64 0", "set row 0 0 0 0",
]

OUT_OF_RANGE = [
    "length 65538", "length -1", "length 18446744073709551615", "byte 65537 0", "byte 0 256", "byte 0 -1", "byte -1 0", "byte 18446744073709551615 0",
    "word 65534 0", "word 65537 0", "word -1 0", "word -4 0", "word 18446744073709551612 0", "seal 128 0", "seal -1 0", "seal 36028797018963968 0",
    "write 65537", "write -1", "trace 65537", "trace -1", "trace 18446744073709551615", "list 8193", "list -1", "list 2305843009213693952", "each 65537 0",
    "each 0 8193", "each -1 0", "each 0 -1", "traces 511", "traces 0", "traces 65537", "traces -1", "lists 0", "lists 8193", "lists -1", "put status 3",
    "put status -1", "put status 18446744073709551615", "put threshold 32 0", "put threshold -1 0", "put divisor 64 0", "put number 64 0", "put row 128 0 0",
    "put row 0 33 0", "put row -1 0 0", "put row 0 -1 0", "put row 127 33 0", "put lower 33 0 0", "put lower 0 32 0", "put lower 32 32 0", "put upper 33 0 0",
    "put upper 0 32 0", "put below 33 0 0", "put below 0 32 0", "put above 33 0 0", "put above 0 32 0", "put decided 33 0", "put decided -1 0",
    "set lower 32 0", "set lower -1 0", "set upper 32 0", "set threshold 32 0", "set divisor 64 0", "set row 64 0 0", "set row 0 33 0", "set row 63 33 0",
]

# The same of the commands on a problem in hand.
CHANGE_NUMBERS = ["check 1", "check ", "begin 5", "append", "append x", "append 0 0", "replace 0", "replace 0 0 0", "replace 64 x", "choose", "choose 1 1",
                  "close", "close 0 0"]

CHANGES_OUT_OF_RANGE = ["append 64", "append -1", "replace 64 0", "replace 0 64", "replace -1 0", "close 32", "close -1", "close 2"]

# Just in range: each is played, and what it changed is shown.
IN_RANGE = [
    ["length 0", "read"], ["length 65537", "read"], ["length 65536", "read"], ["length 512", "byte 65536 255", "read"],
    ["length 1536", "word 65533 -1", "read"], ["seal 127 18446744073709551615", "length 65536", "read"], ["seal 0 4294967296", "length 1536", "read"],
    ["seal 0 18446744069414584320", "read"], ["seal 2 1", "read"], ["seal 2 2", "read"], ["word 12 4294967295", "seal 0 0", "read"],
    ["word 12 -4294967296", "seal 0 0", "read"], ["word 12 9223372036854775808", "seal 0 0", "read"], ["byte 16 5", "seal 0 0", "read"], ["write 65536"],
    ["write 0"], ["set lower 31 7", "write 1536"], ["set row 63 32 9", "set divisor 63 1", "set threshold 31 1", "set upper 31 -1", "write 1536"],
    ["set row 1 0 -1073741824", "write 1536"], ["set row 1 0 18446744072635809792", "write 1536"],
]

# The same word, written in several ways.
SAME = [["-1", "18446744073709551615"], ["-9223372036854775808", "9223372036854775808"], ["0", "-0", "000", "-" + "0" * 300], ["7", "007"],
        ["-2", "18446744073709551614", "-00002"]]

# The last number of each array of the state.
LAST = ["threshold 31", "divisor 63", "number 63", "row 127 32", "lower 32 31", "upper 32 31", "below 32 31", "above 32 31", "decided 32", "row 127 0",
        "row 0 32", "lower 0 31", "lower 32 0", "decided 0"]


def show(script):
    script.do("digest", "read", "write 1536")


def write_reason(script, reason, lines):
    """Lines with one reason: each changes nothing."""
    script.part("lines: " + reason)
    script.say("lines that cannot be played: " + reason)
    script.do("load plan-a.plan", "read", "open", "step", "keep", "put conflicts 2")
    for k, line in enumerate(lines):
        script.do(line)
        if k % 20 == 0:
            show(script)
    show(script)
    script.do("back", "digest")


def write_blank(script):
    script.part("before anything is loaded")
    script.say("what there is before anything is loaded")
    script.do("digest", "state", "back", "digest", "keep", "litter 5", "digest", "each 512 4", "steps", "traces 512", "lists 4", "write 512", "verdict")
    script.do("solutions", "read", "open", "state", "length 512", "verdict", "read", "seal 0 0", "read", "put n 1", "put depth 1", "state", "each 1024 3")
    script.do("set n 1", "write 512")
    script.do("", "# a comment", "#say nothing", "say", "say ", "say  two spaces ", "say # no comment", "say \xe9\xff\x80", "say " + "long " * 400)


def write_words(script):
    """Numbers as words of 64 bits, at every place of the state."""
    script.part("lines: words")
    script.say("numbers in several ways")
    script.do("load plan-a.plan", "open", "litter 0", "keep")
    for words in SAME:
        for word in words:
            for place in ("lower 0 1", "below 0 1", "row 1 2", "budget", "threshold 0", "divisor 1"):
                script.do("put %s %s" % (place, word))
            script.do("digest", "state", "each 512 2", "back", "litter " + word, "put n 3", "put depth 1", "state", "back")
    script.say("the last number of each array")
    for place in LAST:
        script.do("put n 32", "put m 64", "put made 64", "put depth 32", "put %s 9" % place, "digest", "put %s -9" % place, "digest", "back")
    script.say("sizes past the arrays")
    for size, number in [("n", 33), ("m", 65), ("depth", 33), ("n", 2**64 - 1), ("m", 2**63), ("depth", 2**64 - 1)]:
        script.do("put %s %d" % (size, number), "state", "litter 77", "each 700 9", "put %s 1" % size, "digest", "back")


def write_lines(script):
    write_blank(script)
    for reason, lines in [("no such command", UNKNOWN), ("no such field", NO_FIELD), ("no such file", NO_FILE), ("number", NUMBERS),
                          ("out of range", OUT_OF_RANGE)]:
        write_reason(script, reason, lines)
    script.part("lines: in range")
    script.say("lines that are just in range")
    for lines in IN_RANGE:
        script.do("load plan-a.plan", "read", *lines)
    write_words(script)


def write_change_lines(script):
    """Lines of the commands on a problem in hand that cannot be played."""
    for reason, lines in [("number", CHANGE_NUMBERS), ("out of range", CHANGES_OUT_OF_RANGE)]:
        write_reason(script, reason + ", of a problem in hand", lines)
