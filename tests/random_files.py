"""Random and damaged record files, most of them nearly good, for fuzz_files, fuzz_compares and fuzz_salvages."""

from record_cases import LENGTHS, MOST, TRAILER, damaged, trailer, with_trailer


def random_bytes(count, dice):
    return dice.getrandbits(8 * count).to_bytes(count, "little")


def good_file(dice):
    """Any records of either length: mostly a few, now and then about as many as there may be of one length or the other."""
    length, most = dice.pick(LENGTHS), dice.pick(list(MOST.values()))
    count = dice.pick((most - 1, most, most + 1, 2 * most)) if dice.below(8) == 0 else dice.below(12)
    return with_trailer(length, random_bytes(length * count, dice))


def damaged_file(dice):
    """A good file damaged at its end, several times in a row now and then."""
    file = good_file(dice)
    for _ in range(dice.pick((1, 1, 1, 2, 3))):
        file = damaged(file, dice) if file else random_bytes(dice.below(30), dice)
    return file


def cut_file(dice):
    """A good file with bytes missing at its end, at its beginning or in the middle, or with bytes more."""
    file = good_file(dice)
    start, end = sorted(dice.below(len(file) + 1) for _ in range(2))
    return dice.pick((file[:end], file[start:], file[start:end], file[:start] + file[end:], file + file[start:end], file + file))


def forged_file(dice):
    """Any bytes before a trailer whose numbers nearly agree."""
    length, other = dice.pick((LENGTHS, LENGTHS[::-1]))
    size = dice.pick((0, dice.below(200), length * dice.below(10), other * dice.below(10), 180))
    count = dice.pick((size // length, size // other, dice.below(12), MOST[length] + dice.below(3), dice.getrandbits(16)))
    distance = dice.pick((size, length * count, other * count, size + TRAILER, length * count % 2**16, dice.getrandbits(32)))
    return random_bytes(size, dice) + trailer(dice.pick((length, length, length, length, 19, dice.getrandbits(16))), count, distance)


def any_bytes(dice):
    return random_bytes(dice.below(dice.pick((9, 30, 300))), dice)


FORMS = (good_file, good_file, damaged_file, damaged_file, cut_file, forged_file, any_bytes)


def random_file(dice):
    return dice.pick(FORMS)(dice)
