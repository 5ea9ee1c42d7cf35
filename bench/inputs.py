#!/usr/bin/env python3
"""Makes the inputs that bench/run times: inputs.py FOLDER.

Each input NAME.rescala has a file NAME.wanted beside it: the exit status, the count of lines of
output, how many runs are timed together, and the last line of output.
"""

import pathlib
import sys

LIMIT = 16_777_216
PART = 65_536
SMALL = "device a; var x: int = 2; signal s = x + 3;\n---\n"


def lines(count, line):
    """A small program and this line, so many times."""
    return SMALL + line * count


def padded(text, length):
    """The text and then empty lines up to this length."""
    return text + "\n" * (length - len(text))


def chained(step):
    """512 declarations, 510 of them signals over the one before, 1,000 turns and a get of the last."""
    text = "device a; var x: int = 0; signal s1 = x + 1;\n"
    for number in range(2, 511):
        text += f"signal s{number} = " + step.format(f"s{number - 1}") + ";\n"
    text += "---\n"
    for number in range(1, 1_001):
        text += f"turn a x = {number}\n"
    return text + "get a s510\n"


def chain():
    """A chain of 10 signals, the last of which is s10."""
    text = "device a; var x: int = 0; signal s1 = x + 1;\n"
    for number in range(2, 11):
        text += f"signal s{number} = s{number - 1} + 1;\n"
    return text


def diamond():
    """97 signals over one var, and 3 that sum them, the last of which is top."""
    text = "device a; var x: int = 0;\n"
    for number in range(97):
        text += f"signal a{number} = x + {number};\n"
    halves = [" + ".join(f"a{number}" for number in part) for part in (range(49), range(49, 97))]
    return text + f"signal left = {halves[0]};\nsignal right = {halves[1]};\nsignal top = left + right;\n"


def independent():
    """500 signals, of which s0 alone stands over x."""
    text = "device a; var x: int = 0; var y: int = 0;\nsignal s0 = x + 1;\n"
    for number in range(1, 500):
        text += f"signal s{number} = y + {number};\n"
    return text


def turns(program):
    """As many turns as a device takes."""
    return program + "---\n" + "turn a x = 1\nturn a x = 2\n" * 2_048


def operations():
    """A set that is filled with 1,024 elements, and turns with three operations each, up to as many as a device takes."""
    text = "device a; counter c; set s: int; register m: int = 0; signal n = size(s);\n---\n"
    for turn in range(16):
        text += "turn a " + ", ".join(f"insert s {turn * 64 + part}" for part in range(64)) + "\n"
    for turn in range(16, 4_096):
        text += f"turn a insert s {turn % 1_024}, add c 1, write m {turn}\n"
    return text


def gets(program, name):
    """A turn and a million gets."""
    return program + "---\nturn a x = 1\n" + f"get a {name}\n" * 1_000_000


def full_of(line):
    """An input of the greatest length, as full of this line as may be."""
    count = (LIMIT - len(SMALL)) // len(line)
    return padded(lines(count, line), LIMIT), count


def longest_sum():
    """A program part of the greatest length that is one sum of 32,759 ones."""
    text = "device a;signal s=1" + "+1" * 32_758 + ";"
    assert len(text) == PART
    return text


def filled(text):
    """The text and then a comment up to the greatest length of a program part."""
    return text + "#" * (PART - len(text))


def comments():
    """A device and comments of one line each."""
    count = (PART - 9) // 64
    return "device a;" + ("#" * 63 + "\n") * count


def long_name(number):
    """A name of 32 bytes."""
    return f"n{number:031}"


def declarations():
    """A device, 255 vars and 256 signals, each with a name of 32 bytes."""
    text = "device a;\n"
    for number in range(1, 256):
        text += f"var {long_name(number)}: int = 1;\n"
    for number in range(256, 512):
        text += f"signal {long_name(number)} = {long_name(255)} + 1;\n"
    return filled(text)


def brackets():
    """A device and 400 signals, each of one number in 70 brackets."""
    text = "device a;\n"
    for number in range(1, 401):
        text += f"signal s{number} = " + "(" * 70 + "1" + ")" * 70 + ";\n"
    return filled(text)


def names():
    """Signals of 64 names each, up to the greatest length: their canonical text is too long."""
    text = "device a;var x:int=1;"
    number = 0
    while len(text) + 150 < PART:
        text += f"signal s{number}=" + "+".join("x" * 64) + ";"
        number += 1
    return filled(text)


def all_inputs():
    full_gets, count = full_of("get a s\n")
    yield "first", lines(1, "get a s\n"), 0, 1, "5"
    yield "gets_of_a_var", lines(1_000_000, "get a x\n"), 0, 1_000_000, "2"
    yield "gets_of_a_signal", lines(1_000_000, "get a s\n"), 0, 1_000_000, "5"
    yield "gets_in_chain", gets(chain(), "s10"), 0, 1_000_001, "11"
    yield "gets_in_diamond", gets(diamond(), "top"), 0, 1_000_001, str(97 + sum(range(97)))
    yield "gets_among_500", gets(independent(), "s0"), 0, 1_000_001, "2"
    yield "turns_in_chain", turns(chain()), 0, 4_096, "ok 4096", 20
    yield "turns_in_diamond", turns(diamond()), 0, 4_096, "ok 4096", 20
    yield "turns_among_500", turns(independent()), 0, 4_096, "ok 4096", 20
    yield "operations", operations(), 0, 4_096, "ok 4096", 20
    yield "no_commands", lines(1_000_000, "no such\n"), 0, 1_000_000, "no 20"
    yield "full_of_gets", full_gets, 0, count, "5"
    yield "full_of_empty_lines", padded(SMALL, LIMIT), 0, 0, ""
    yield "full_and_one_more", padded(SMALL, LIMIT + 1), 10, 1, "rescala: input too long"
    yield "one_long_line", SMALL + "x" * (LIMIT - len(SMALL)), 0, 1, "no 20"
    yield "one_long_part", "x" * LIMIT, 3, 1, "rescala: program: too long"
    yield "chain_of_ones", chained("{0} + 1"), 0, 1_001, "1510"
    yield "chain_of_doubles", chained("{0} + {0}"), 0, 1_001, "fault 1"
    yield "longest_sum", turns("device a; var x: int = 0; signal s = x" + "+1" * 63 + ";\n"), 0, 4_096, "ok 4096", 20
    yield "longest_sum_refused", longest_sum(), 3, 1, "rescala: program: too deep at 18"
    yield "check_comments", comments(), 0, 1, "device a;"
    yield "check_declarations", declarations(), 0, 512, f"signal {long_name(511)} = ({long_name(255)} + 1);"
    yield "check_brackets", brackets(), 0, 401, "signal s400 = 1;"
    yield "check_names", names(), 3, 1, "rescala: program: too long"


def main():
    folder = pathlib.Path(sys.argv[1])
    for name, text, status, count, last, *runs in all_inputs():
        (folder / f"{name}.rescala").write_bytes(text.encode())
        (folder / f"{name}.wanted").write_text(f"{status}\n{count}\n{sum(runs) or 1}\n{last}\n")


main()
