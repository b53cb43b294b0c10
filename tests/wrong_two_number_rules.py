"""Wrong rules of a line of two numbers (document 02, No. 10), for check_wrong_rules.py: each is put into the second program in place of
its own."""

import reference as ref

SIX, ALL_STEPS, NO_CLASS = 6, 14, b"-"


def numbers_of(line):
    """u, v and the third number, None where there are two; None for a line that cannot be read."""
    match = ref.LINE.fullmatch(line)
    return match and tuple(None if word is None else int(word) for word in match.groups())


def allowing(choose, right=ref.answer_line):
    """A line is answered with the steps that `choose` makes of u, v and the third number."""
    def answer_line(line):
        numbers = numbers_of(line)
        return right(b"%d %d %d" % (*numbers[:2], choose(*numbers))) if numbers else right(line)
    return answer_line


def or_six(steps):
    return SIX if steps is None else steps


def all_where_six_name_no_class(u, v, steps, right=ref.answer_line):
    if steps is None:
        return ALL_STEPS if right(b"%d %d %d" % (u, v, SIX)).endswith(NO_CLASS) else SIX
    return steps


def with_fields_of_all_steps(*places, right=ref.answer_line):
    """A line of two numbers is answered with six steps, and has these fields of the answer with 14."""
    def answer_line(line):
        numbers, fields = numbers_of(line), right(line).split(b" ")
        if numbers and numbers[2] is None and len(fields) > 1:
            every = right(b"%d %d %d" % (*numbers[:2], ALL_STEPS)).split(b" ")
            fields = [every[at] if at in places else field for at, field in enumerate(fields)]
        return b" ".join(fields)
    return answer_line


WRONG_TWO_NUMBER_RULES = (
    *(("DEFAULT_STEPS", steps, "two numbers mean %d steps" % steps) for steps in (0, 5, 7, 13, 14)),
    ("answer_line", allowing(lambda u, v, steps: SIX), "six steps, whatever the third number is"),
    ("answer_line", allowing(lambda u, v, steps: min(or_six(steps), SIX)), "a third number over 6 is as 6"),
    ("answer_line", allowing(lambda u, v, steps: max(or_six(steps), SIX)), "a third number under 6 is as 6"),
    ("answer_line", allowing(lambda u, v, steps: steps or SIX), "a third number of 0 is as none"),
    ("answer_line", allowing(lambda u, v, steps: SIX if steps == ALL_STEPS else or_six(steps)), "a third number of 14 is as none"),
    ("answer_line", allowing(all_where_six_name_no_class), "all steps where six name no class"),
    ("answer_line", with_fields_of_all_steps(1, 4), "the place and Duv of all steps"),
    ("answer_line", with_fields_of_all_steps(2, 3), "the range of all steps"),
    ("answer_line", with_fields_of_all_steps(5), "the count of all steps"),
    ("answer_line", with_fields_of_all_steps(6), "the class of all steps"),
)
