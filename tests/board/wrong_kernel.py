"""A kernel that is wrong in one rule: fmpsim, of which what goes in or comes out is changed on its way. It stands in the place of fmpsim.

    FMPSIM=PROGRAM WRONG='configuration: PATTERN => REPLACEMENT' wrong_kernel calls --state machine.cfg -

A rule is of the configuration, of an event, or of an answer, the line of a trace; several are behind one another in lines of WRONG. What asks for
anything but `calls` gets the true answer, from the script `wrong_kernel`.
"""
import os
import re
import subprocess
import sys
import tempfile
import threading


def rules_of(text):
    """The rules, by what they are of."""
    rules = {"configuration": [], "event": [], "answer": []}
    for line in text.split("\n"):
        kind, _, rule = line.partition(": ")
        pattern, _, replacement = rule.partition(" => ")
        rules[kind].append((re.compile(pattern), replacement))
    return rules


def changed(rules, text):
    for pattern, replacement in rules:
        text = pattern.sub(replacement, text)
    return text


def pass_on(rules, source, target):
    """Each line with its change, up to the end. Lines of states stay as they are."""
    for line in source:
        target.write(line if line.startswith(" ") else changed(rules, line))
        target.flush()
    target.close()


def calls(program, words, rules):
    """`calls`, whose configuration is the last word but one."""
    with open(words[-2]) as file, tempfile.NamedTemporaryFile("w", suffix=".cfg") as made:
        made.write(changed(rules["configuration"], file.read()))
        made.flush()
        kernel = subprocess.Popen([program, *words[:-2], made.name, words[-1]], stdin=subprocess.PIPE, stdout=subprocess.PIPE, text=True)
        threading.Thread(target=pass_on, args=(rules["event"], sys.stdin, kernel.stdin), daemon=True).start()
        pass_on(rules["answer"], kernel.stdout, sys.stdout)
        return kernel.wait()


def main():
    return calls(os.environ["FMPSIM"], sys.argv[1:], rules_of(os.environ["WRONG"]))


if __name__ == "__main__":
    sys.exit(main())
