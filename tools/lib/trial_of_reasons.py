"""What tools/first_run tries of bad lines: what the program says of each, and why it is bad where that is asked for."""

# Bad lines, with their modes and what is said of each.
REASONS = (
    ("list", "\n", "empty line"),
    ("list", "popf 0\r\n", "carriage return"),
    ("list", "popf  0\n", "stray space"),
    ("list", " popf 0\n", "stray space"),
    ("list", "popf 0 \n", "stray space"),
    ("stack", "push 0  1 1\n", "stray space"),
    ("list", "# a comment\n", "no such word"),
    ("stack", "pushb 0 1 1\n", "no such word"),
    ("list", "pushb 0 01 1\n", "leading zero"),
    ("list", "pushb 0 1 00", "leading zero"),
    ("list", "pushb 0 1 18446744073709551616\n", "number too great"),
    ("queue", "enq 18446744073709551616 1 1\n", "number too great"),
    ("list", "popf 16\n", "no such structure"),
    ("list", "append 0 16\n", "no such structure"),
    ("list", "split 0 20 16\n", "no such structure"),
    ("stack", "take 0 16\n", "no such structure"),
    ("sorted", "from 16 1:1\n", "no such structure"),
    ("list", "popf 0 16\n", "wrong words"),
    ("list", "pushb 0 1\n", "wrong words"),
    ("list", "walk 0 x\n", "wrong words"),
    ("transfer", "load 16\n", "wrong words"),
    ("sorted", f"from 1{' 1:1' * 29}\n", "too long"),
)
# The same of the second line of a block, which runs then.
IN_A_BLOCK = (("set\n", "wrong words"), ("splita 16\n", "no such structure"), ("set 01\n", "leading zero"))

# Scripts that end in a bad line, with their modes, the replies to the lines before it, and its number.
SCRIPTS = (
    ("list", "popf 0\npopf 16\npopf 0\n", "none\n", 2),
    ("list", "pushf 0 18446744073709551616 0\n", "", 1),
    ("list", "len  0\n", "", 1),
    ("list", "len 0 \n", "", 1),
    ("list", "popf 00\n", "", 1),
    ("list", "len 0\r\n", "", 1),
    ("list", "len 0\u00e9\n", "", 1),
    ("list", "\n", "", 1),
    ("list", f"walk 0 {'n' * 65}\n", "", 1),
    ("list", "len 0\nlen 0\nle", "len 0\nlen 0\n", 3),
    ("list", "pushb 0 1 1\ncursor 0 front\ncur\nshow 0\n", "ok\nok\nsome 1 1\n", 4),
    ("stack", "push 0 1 1\npushf 0 1 1\n", "true\n", 2),
    ("sorted", "show 0\nfrom 0\n", "show\n", 2),
    ("sorted", f"from 11 {'100:10 ' * 15}100:1000\n", "", 1),
    ("transfer", "party\nroom 00\n", "party 0\n", 2),
    ("queue", "party\nbatch 0\n", "party 0\n", 2),
)
# The variable that asks the program for reasons, and what of it does not.
ASKS = "CORDYCEPS_REPLAY_REASONS"
DOES_NOT_ASK = (["-u", ASKS], [f"{ASKS}="], [f"{ASKS}=0"], [f"{ASKS}=yes"])


def all_scripts():
    """The scripts, and the lines that have reasons as scripts of their own."""
    yield from SCRIPTS
    for mode, line, _ in REASONS:
        yield mode, line, "", 1
    for line, _ in IN_A_BLOCK:
        yield "list", f"cursor 0 front\n{line}", "ok\n", 2


def faults_of_program(checkout, program):
    """What is wrong with what a built program says of bad lines where no reason is asked for, byte for byte."""
    found = []
    for mode, script, replies, number in all_scripts():
        ran = checkout.run(command=["env", "-u", ASKS, program, mode], script=script)
        if (ran.status, ran.out, ran.err) != (2, replies, f"bad line {number}\n"):
            found.append(f"the program in mode {mode}, {script!r}: it ended so: {ran}")
    for words in DOES_NOT_ASK:
        ran = checkout.run(command=["env", *words, program, "list"], script="popf 00\n")
        if (ran.status, ran.out, ran.err) != (2, "", "bad line 1\n"):
            found.append(f"the program with {' '.join(words)}: it ended so: {ran}")
    return found


def faults(checkout, before, expect, program):
    """What is wrong with what a checkout's build says of bad lines: by ./replay, after the lines BEFORE, and itself."""
    found = []
    for mode, line, reason in REASONS:
        ran = checkout.run(mode, script=line)
        found += [f"{mode}, {line!r}: {it}" for it in expect(ran, 2, "", *before, f"bad line 1: {reason}")]
    for line, reason in IN_A_BLOCK:
        ran = checkout.run("list", script=f"cursor 0 front\n{line}")
        found += [f"in a block, {line!r}: {it}" for it in expect(ran, 2, "ok\n", *before, f"bad line 2: {reason}")]
    return found + faults_of_program(checkout, program)
