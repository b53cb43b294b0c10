"""Random tests by seeds, in a process of their own, which a fault of the library may end."""

import argparse
import mmap
import os
import sys
import traceback
from collections import Counter
from typing import Callable, NamedTuple

from check_wrong_rules import put_in, title_of
from record_calls import Difference


class RandomTest(NamedTuple):
    name: str  # of the script
    one: str  # what is made of a seed
    many: str
    check: Callable  # of a seed: raises a Difference, and counts the refusals that it meets in what it is given second
    answered: str  # what is said of those that are not refused
    load: Callable  # looks for the library


# --- Seeds ------------------------------------------------------------------------------------------------------------


def run(test, first, count, reached):
    """Tries some seeds; `reached` holds the one that is being tried, for whoever finds that this process has ended. The exit status."""
    refusals = Counter()
    for seed in range(first, first + count):
        reached[:8] = seed.to_bytes(8, "little")
        try:
            test.check(seed, refusals)
        except Difference as difference:
            print("%s: seed %d: %s" % (test.name, seed, difference))
            return 1
    met = ", ".join("%d %s" % (refusals[number], "refused with %d" % number if number else test.answered) for number in sorted(refusals))
    print("%s: %d %s, seeds %d to %d: %s; no difference" % (test.name, count, test.many, first, first + count - 1, met))
    return 0


def run_apart(test, first, count):
    """Tries so many seeds from the first on in a child; its exit status, and the last seed."""
    reached = mmap.mmap(-1, 8)
    sys.stdout.flush()
    child = os.fork()
    if child == 0:
        status = 1
        try:
            status = run(test, first, count, reached)
            sys.stdout.flush()
        except BaseException:  # said here: the child ends without Python's own last words
            traceback.print_exc()
        finally:
            sys.stderr.flush()
            os._exit(status)
    _, ended = os.waitpid(child, 0)
    seed = int.from_bytes(reached[:8], "little")
    if os.WIFSIGNALED(ended):
        print("%s: seed %d: the process was ended by signal %d" % (test.name, seed, os.WTERMSIG(ended)))
    return ended, seed


def try_seeds(test, doc):
    """Tries the seeds that the command line asks for, and gives the first of them; a difference ends the program."""
    parser = argparse.ArgumentParser(description=doc, formatter_class=argparse.RawDescriptionHelpFormatter)
    parser.add_argument("--seed", type=int, default=1)
    parser.add_argument("--count", type=int, default=1000)
    options = parser.parse_args()
    try:
        test.load()
    except (OSError, AttributeError) as error:
        sys.exit("%s: the library is not built, or is older than this test: %s" % (test.name, error))
    ended, seed = run_apart(test, options.seed, options.count)
    if ended:
        sys.exit("%s: this %s again: tests/%s --seed %d --count 1" % (test.name, test.one, test.name, seed))
    return options.seed


# --- Wrong rules ------------------------------------------------------------------------------------------------------


def differs(test, seed):
    try:
        test.check(seed, Counter())
    except Difference:
        return True
    return False


def find_each(test, rules, part, first):
    """Each wrong rule of a part of the second program must make some seed of 2,000 differ."""
    missed = []
    for rule in rules:
        with put_in(part, *rule[:2]):
            missed += [] if any(differs(test, seed) for seed in range(first, first + 2000)) else [title_of(*rule)]
    if missed:
        sys.exit("%s: wrong rules that are not found: %s" % (test.name, ", ".join(missed)))
    print("%s: each of %d wrong rules of the second program is found" % (test.name, len(rules)))
