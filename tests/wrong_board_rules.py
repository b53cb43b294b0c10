"""Wrong rules of boards for check_wrong_rules.py and fuzz_boards: near misses that document 02's No. 6, 8 and 11 leave room for.

They are put into board_table.py. The first word of each rule is the name there that it stands in for. `WRONG_C_BOARD_RULES` are those
that no line `board` can show, since it names two parties only and cuts all columns at one place."""

from itertools import chain, zip_longest

import board_table as table
from board_table import LAST_STAMP, NO_SUCH_PLACE, OURS, PARTIES, PARTNER, STALE_STAMP, TOO_MANY_LOTS, Lot, Owned, Told
from wrong_record_rules import (DUV, as_long_as, as_long_as_the_longest, held_within, in_16_bits, in_16_bits_without_a_sign,
                                none_where_lengths_differ, with_duv, words)

MOST_LOTS = 64
LARGEST_STAMP = 65_535
NO_RECORD = (0,) * 8


def with_lots(board, change):
    """A board whose lots are changed, each by its place, its owner and itself."""
    return {place: Owned(owner, change(place, owner, lot)) for place, (owner, lot) in board.items()}


# --- The load ---------------------------------------------------------------------------------------------------------


def first_of(count, ours, theirs):
    """Both lists, cut so that there are so many records together."""
    return ours[:count], theirs[:max(count - len(ours), 0)]


def refused_load_keeps_the_first_64(ours, theirs):
    return table.placed(*first_of(MOST_LOTS, ours, theirs)), Told(TOO_MANY_LOTS)


def refused_load_keeps_all_lots(ours, theirs):
    return table.placed(ours, theirs), Told(TOO_MANY_LOTS)


def refused_load_keeps_our_lots(ours, theirs):
    return table.placed(ours[:MOST_LOTS], []), Told(TOO_MANY_LOTS)


def refused_load_keeps_their_lots(ours, theirs):
    return table.placed([], theirs[:MOST_LOTS]), Told(TOO_MANY_LOTS)


def refused_load_gives_one_lot_of_zeros(ours, theirs):
    return table.placed([NO_RECORD], []), Told(TOO_MANY_LOTS)


def first_64_loaded(ours, theirs):
    return table.placed(*first_of(MOST_LOTS, ours, theirs)), Told()


def last_64_loaded(ours, theirs):
    dropped = len(ours) + len(theirs) - MOST_LOTS
    return table.placed(ours[dropped:], theirs[max(dropped - len(ours), 0):]), Told()


def ours_alone_loaded(ours, theirs):
    return (table.placed(ours, []), Told()) if len(ours) <= MOST_LOTS else ({}, Told(TOO_MANY_LOTS))


def too_many_gives_11(ours, theirs):
    return {}, Told(11)


def count_wraps_at(bits):
    """A load that counts the records of each list in so few bits."""
    return lambda ours, theirs, load=table.load: load(ours[:len(ours) % 2**bits], theirs[:len(theirs) % 2**bits])


def sum_wraps_at(bits):
    """A load that counts the records of both lists in so few bits."""
    return lambda ours, theirs, load=table.load: load(*first_of((len(ours) + len(theirs)) % 2**bits, ours, theirs))


def our_lots_counted(ours, theirs):
    return len(ours)


def their_lots_counted(ours, theirs):
    return len(theirs)


def longer_list_counted(ours, theirs):
    return max(len(ours), len(theirs))


def one_more_counted_where_both_have_lots(ours, theirs):
    return len(ours) + len(theirs) + (1 if ours and theirs else 0)


def one_less_counted_where_both_have_lots(ours, theirs):
    return len(ours) + len(theirs) - (1 if ours and theirs else 0)


def counted_in(of_ours=64, of_theirs=64, of_both=64):
    """How many lots are counted where the counts of the lists or their sum are kept to so few bits; all records are then placed."""
    return lambda ours, theirs: (len(ours) % 2**of_ours + len(theirs) % 2**of_theirs) % 2**of_both


def no_records_refused(ours, theirs, load=table.load):
    return load(ours, theirs) if ours or theirs else ({}, Told(NO_SUCH_PLACE))


def house_without_records_refused(ours, theirs, load=table.load):
    return load(ours, theirs) if bool(ours) == bool(theirs) else ({}, Told(TOO_MANY_LOTS))


def theirs_only_beside_ours(ours, theirs, load=table.load):
    return load(ours, theirs if ours else [])


def as_many_of_each(ours, theirs, load=table.load):
    count = min(len(ours), len(theirs))
    return load(ours[:count], theirs[:count])


def theirs_no_more_than_ours(ours, theirs, load=table.load):
    return load(ours, theirs[:len(ours)])


def lists_swapped(ours, theirs, load=table.load):
    return load(theirs, ours)


def in_each_list(change):
    """Each house's records changed before they are placed."""
    def placed(ours, theirs, right=table.placed):
        return right(change(ours), change(theirs))
    placed.__name__ = change.__name__
    return placed


def last_record_first(records):
    return records[::-1]


def same_record_once(records):
    return list(dict.fromkeys(records))


def in_the_order_of_u(records):
    return sorted(records, key=lambda record: record[0])


def record_of_zeros_left_out(records):
    return [record for record in records if any(record)]


def places_from_1(ours, theirs, placed=table.placed):
    return {place + 1: owned for place, owned in placed(ours, theirs).items()}


def one_more_place(ours, theirs, placed=table.placed):
    return placed(ours, [*theirs, NO_RECORD])


def one_more_place_of_ours(ours, theirs, placed=table.placed):
    return placed([*ours, NO_RECORD], theirs)


def by_the_place_of_the_record(ours, theirs, placed=table.placed):
    return {owned.lot.record[2] % MOST_LOTS: owned for owned in placed(ours, theirs).values()}


def first_job_the_place(ours, theirs, placed=table.placed):
    return with_lots(placed(ours, theirs), lambda place, owner, lot: lot._replace(job=place))


def first_stamp_the_place(ours, theirs, placed=table.placed):
    return with_lots(placed(ours, theirs), lambda place, owner, lot: lot._replace(stamp=place))


def first_job_the_owner(ours, theirs, placed=table.placed):
    return with_lots(placed(ours, theirs), lambda place, owner, lot: lot._replace(job=owner))


def first_stamp_the_owner(ours, theirs, placed=table.placed):
    return with_lots(placed(ours, theirs), lambda place, owner, lot: lot._replace(stamp=owner))


def loaded_with(change):
    """Lots whose record is changed at loading."""
    return lambda record, at_loading=table.at_loading: at_loading(change(*record))


def theirs_loaded_with(change):
    """Lots of the partner whose record is changed at loading."""
    def of_house(owner, records, right=table.of_house):
        return right(owner, [change(*record) for record in records] if owner == PARTNER else records)
    return of_house


def duv_beyond_16_bits_refused(ours, theirs, load=table.load):
    fit = all(in_16_bits(record[DUV]) == record[DUV] for record in chain(ours, theirs))
    return load(ours, theirs) if fit else ({}, Told(TOO_MANY_LOTS))


# --- Owners at loading ------------------------------------------------------------------------------------------------


def theirs_first(ours, theirs):
    return [*table.of_house(PARTNER, theirs), *table.of_house(OURS, ours)]


def theirs_first_for_ours(ours, theirs, in_a_row=table.in_a_row):
    owners, lots = (in_a_row(*lists) for lists in ((ours, theirs), (theirs, ours)))
    return [Owned(owned.owner, other.lot) for owned, other in zip(owners, lots)]


def in_turn(ours, theirs):
    pairs = zip_longest(table.of_house(OURS, ours), table.of_house(PARTNER, theirs))
    return [owned for pair in pairs for owned in pair if owned]


def theirs_from_the_last_record_on(ours, theirs, in_a_row=table.in_a_row):
    return in_a_row(ours, theirs[::-1])


def record_that_we_have_left_out(ours, theirs, in_a_row=table.in_a_row):
    return in_a_row(ours, [record for record in theirs if record not in ours])


def owned_by(is_ours):
    """Lots in a row whose owner goes by their place, our number of lots and that of all."""
    def in_a_row(ours, theirs, right=table.in_a_row):
        lots = [owned.lot for owned in right(ours, theirs)]
        return [Owned(OURS if is_ours(place, len(ours), len(lots)) else PARTNER, lot) for place, lot in enumerate(lots)]
    return in_a_row


OWNERS = {
    "even places ours": lambda place, ours, count: place % 2 == 0,
    "a place too many ours": lambda place, ours, count: place <= ours,
    "our last place theirs": lambda place, ours, count: place < ours - 1,
    "half of the lots ours": lambda place, ours, count: place < count / 2,
    "places under 32 ours": lambda place, ours, count: place < 32,
    "every place ours": lambda place, ours, count: True,
    "every place theirs": lambda place, ours, count: False,
    "the last places ours": lambda place, ours, count: place >= count - ours,
    "the last place always theirs": lambda place, ours, count: place < min(ours, count - 1),
    "the first place always ours": lambda place, ours, count: place < max(ours, 1)}


def theirs_placed_from(first):
    """Our lots from place 0 on, theirs from a place on that goes by both counts; a place that both have is the partner's."""
    def placed(ours, theirs):
        behind = first(len(ours), len(theirs))
        return {**dict(enumerate(table.of_house(OURS, ours))), **dict(enumerate(table.of_house(PARTNER, theirs), behind))}
    return placed


FIRST_OF_THEIRS = {
    "theirs from place 0 on": lambda ours, theirs: 0,
    "theirs from place 32 on": lambda ours, theirs: max(ours, MOST_LOTS // 2),
    "theirs at the last places": lambda ours, theirs: MOST_LOTS - theirs,
    "a place left free before theirs": lambda ours, theirs: ours + 1,
    "theirs from our last place on": lambda ours, theirs: max(ours, 1) - 1}


# --- Places -----------------------------------------------------------------------------------------------------------


def next_place_taken(board, party, place, lot_at=table.lot_at):
    return lot_at(board, party, place - 1 if board and place == len(board) else place)


def place_held_to_the_last(board, party, place, lot_at=table.lot_at):
    return lot_at(board, party, min(place, max(len(board), 1) - 1))


def last_place_left_out(board, party, place, lot_at=table.lot_at):
    return lot_at(board, party, place + 1 if place == len(board) - 1 else place)


def places_from_the_end(board, party, place, lot_at=table.lot_at):
    return lot_at(board, party, len(board) - 1 - place)


def below_zero_from_the_end(board, party, place, lot_at=table.lot_at):
    return lot_at(board, party, place if place < 2**63 else len(board) + place - 2**64)


def place_kept_to(bits):
    return lambda board, party, place, lot_at=table.lot_at: lot_at(board, party, place % 2**bits)


def empty_slots_are_lots(board, party, place, lot_at=table.lot_at):
    return lot_at(board, party, place) or (Lot(NO_RECORD, 0, 0) if place < MOST_LOTS and place not in board else None)


def lot_without_a_job_not_there(board, party, place, read=table.read):
    lot = table.lot_at(board, party, place)
    return (board, Told(NO_SUCH_PLACE)) if lot and lot.job == 0 else read(board, party, place)


# --- Who may touch a place --------------------------------------------------------------------------------------------


def either_reaches_both(party, owner):
    return True


def partner_reaches_both(party, owner):
    return party in (PARTNER, owner)


def we_reach_both(party, owner):
    return party in (OURS, owner)


def partner_reaches_nothing(party, owner):
    return party == owner == OURS


def we_reach_nothing(party, owner):
    return party == owner == PARTNER


def parties_swapped(party, owner):
    return party != owner


def number_of_lots(board, party):
    return sum(owned.owner == party for owned in board.values())


def partner_counts_from_0(board, party, place, lot_at=table.lot_at):
    return lot_at(board, party, place + number_of_lots(board, OURS) if party == PARTNER else place)


def partner_counts_from_the_end(board, party, place, lot_at=table.lot_at):
    return lot_at(board, party, len(board) - 1 - place if party == PARTNER else place)


def reaches(holds):
    """A party reaches the lots of the other house too where something holds of the board, the party and the lot."""
    def lot_at(board, party, place, right=table.lot_at):
        owned = board.get(place)
        return owned.lot if owned and party in PARTIES and holds(board, party, owned.lot) else right(board, party, place)
    return lot_at


def only_where(holds):
    """A party reaches its own lots only where something holds of the board, the party and the lot."""
    def lot_at(board, party, place, right=table.lot_at):
        lot = right(board, party, place)
        return lot if lot and holds(board, party, lot) else None
    return lot_at


BEYOND = {
    "lots at their first stamp are everybody's": lambda board, party, lot: lot.stamp == 0,
    "lots without a job are everybody's": lambda board, party, lot: lot.job == 0,
    "lots with a job are everybody's": lambda board, party, lot: lot.job != 0,
    "lots at the last stamp are everybody's": lambda board, party, lot: lot.stamp == LARGEST_STAMP,
    "a house without lots reaches the other's": lambda board, party, lot: number_of_lots(board, party) == 0,
    "a full board is everybody's": lambda board, party, lot: len(board) == MOST_LOTS}
WITHIN = {
    "nothing reached on a full board": lambda board, party, lot: len(board) < MOST_LOTS,
    "the house with fewer lots reaches nothing": lambda board, party, lot: 2 * number_of_lots(board, party) >= len(board),
    "the partner reaches lots with a job only": lambda board, party, lot: party == OURS or lot.job != 0,
    "owner by the stamp": lambda board, party, lot: lot.stamp % 2 == party}


def owner_at(board, party, place):
    """The owner of a place, for whom a call of a party is taken."""
    return board[place].owner if place in board else party


def any_lot_read(board, party, place, read=table.read):
    return read(board, owner_at(board, party, place), place)


def any_lot_assigned(board, party, place, stamp, job, assign=table.assign):
    return assign(board, owner_at(board, party, place), place, stamp, job)


def only_read_by_the_partner(board, party, place, stamp, job, assign=table.assign):
    return (board, Told(NO_SUCH_PLACE)) if party == PARTNER else assign(board, party, place, stamp, job)


def any_stamp_of_the_partner_taken(board, party, place, stamp, job, assign=table.assign):
    return assign(board, party, place, board[place].lot.stamp if party == PARTNER and place in board else stamp, job)


# --- What the other house is told of a lot ----------------------------------------------------------------------------


def told_of_the_other(tell):
    """Assignments that tell a house something of the other's lot."""
    def assign(board, party, place, stamp, job, right=table.assign):
        owned = board.get(place)
        told = tell(owned.lot, stamp, job) if owned and owned.owner != party else None
        return (board, told) if told else right(board, party, place, stamp, job)
    return assign


def read_of_the_other(tell):
    """Reads that tell a house something of the other's lot."""
    def read(board, party, place, right=table.read):
        owned = board.get(place)
        return (board, tell(owned.lot)) if owned and owned.owner != party else right(board, party, place)
    return read


TOLD_OF_THE_OTHER = {
    "18 for a stale stamp": lambda lot, stamp, job: Told(STALE_STAMP, lot.stamp) if stamp != lot.stamp else None,
    "18 without a stamp for a stale one": lambda lot, stamp, job: Told(STALE_STAMP) if stamp != lot.stamp else None,
    "18 always": lambda lot, stamp, job: Told(STALE_STAMP, lot.stamp),
    "19 for the last stamp": lambda lot, stamp, job: Told(LAST_STAMP) if stamp == lot.stamp == LARGEST_STAMP else None,
    "18 or 19": table.refused,
    "that its job is stored": lambda lot, stamp, job: Told() if stamp == lot.stamp < LARGEST_STAMP else None,
    "17 with the stamp": lambda lot, stamp, job: Told(NO_SUCH_PLACE, lot.stamp),
    "17 with the lot": lambda lot, stamp, job: Told(NO_SUCH_PLACE, lot=lot), "20": lambda lot, stamp, job: Told(20)}
READ_OF_THE_OTHER = {
    "17 with the stamp": lambda lot: Told(NO_SUCH_PLACE, lot.stamp), "17 with the lot": lambda lot: Told(NO_SUCH_PLACE, lot=lot),
    "a lot of zeros": lambda lot: Told(lot=Lot(NO_RECORD, 0, 0)), "the record alone": lambda lot: Told(lot=Lot(lot.record, 0, 0)),
    "the job and the stamp alone": lambda lot: Told(lot=Lot(NO_RECORD, lot.job, lot.stamp)), "18": lambda lot: Told(STALE_STAMP),
    "20": lambda lot: Told(20)}


# --- What a read does and is told -------------------------------------------------------------------------------------


def changed_by_a_read(change):
    """A read that leaves another lot at its place."""
    def read(board, party, place, right=table.read):
        _, told = right(board, party, place)
        return ({**board, place: Owned(party, change(told.lot))} if told.lot else board), told
    return read


def stamp_raised(lot):
    return lot._replace(stamp=min(lot.stamp + 1, LARGEST_STAMP))


def job_cleared(lot):
    return lot._replace(job=0)


def read_tells_the_stamp_too(lot):
    return Told(stamp=lot.stamp, lot=lot)


def read_tells_no_job(lot):
    return Told(lot=lot._replace(job=0))


def read_tells_no_stamp(lot):
    return Told(lot=lot._replace(stamp=0))


def read_tells_no_record(lot):
    return Told(lot=lot._replace(record=NO_RECORD))


def read_tells_low_and_high_swapped(lot):
    u, v, place, low, high, *rest = lot.record
    return Told(lot=lot._replace(record=(u, v, place, high, low, *rest)))


def read_tells_duv_without_its_sign(lot):
    *before, duv, steps, cls = lot.record
    return Told(lot=lot._replace(record=(*before, abs(duv), steps, cls)))


def refused_read_tells_a_lot(place, stamp=None):
    return Told(NO_SUCH_PLACE, lot=Lot((1,) * 8, 0, 0) if stamp is None else None)


# --- The order of refusals, and what they carry -----------------------------------------------------------------------


def no_place_tells_the_stamp_named(place, stamp=0):
    return Told(NO_SUCH_PLACE, stamp)


def no_place_tells_the_place(place, stamp=0):
    return Told(NO_SUCH_PLACE, place % 2**16)


def no_place_gives_18(place, stamp=0):
    return Told(STALE_STAMP)


def stale_before_no_place(board, party, place, stamp, job, assign=table.assign):
    is_stale = stamp > 0 and not table.lot_at(board, party, place)
    return (board, Told(STALE_STAMP)) if is_stale else assign(board, party, place, stamp, job)


def last_before_no_place(board, party, place, stamp, job, assign=table.assign):
    is_last = stamp == LARGEST_STAMP and not table.lot_at(board, party, place)
    return (board, Told(LAST_STAMP)) if is_last else assign(board, party, place, stamp, job)


def last_before_stale(lot, stamp, job, refused=table.refused):
    return table.told_last(lot, stamp) if table.is_last(lot.stamp) else refused(lot, stamp, job)


def last_by_the_stamp_named(lot, stamp, job, refused=table.refused):
    return table.told_last(lot, stamp) if table.is_last(stamp) else refused(lot, stamp, job)


def stale_tells_no_stamp(lot, stamp):
    return Told(STALE_STAMP)


def stale_tells_the_stamp_named(lot, stamp):
    return Told(STALE_STAMP, stamp)


def stale_tells_the_next_stamp(lot, stamp):
    return Told(STALE_STAMP, min(lot.stamp + 1, LARGEST_STAMP))


def stale_tells_the_stamp_before(lot, stamp):
    return Told(STALE_STAMP, max(lot.stamp, 1) - 1)


def stale_tells_no_stamp_at_65535(lot, stamp):
    return Told(STALE_STAMP, lot.stamp % LARGEST_STAMP)


def stale_tells_the_lot(lot, stamp):
    return Told(STALE_STAMP, lot.stamp, lot)


def stale_gives_17(lot, stamp):
    return Told(NO_SUCH_PLACE, lot.stamp)


def last_tells_the_stamp(lot, stamp):
    return Told(LAST_STAMP, lot.stamp)


def last_tells_the_lot(lot, stamp):
    return Told(LAST_STAMP, lot=lot)


def last_gives_18(lot, stamp):
    return Told(STALE_STAMP, lot.stamp)


def stored_tells_the_new_stamp(before, after):
    return Told(stamp=after.stamp)


def stored_tells_the_old_stamp(before, after):
    return Told(stamp=before.stamp)


def stored_tells_the_lot(before, after):
    return Told(lot=after)


def stored_tells_the_lot_before(before, after):
    return Told(lot=before)


# --- Which stamp is taken ---------------------------------------------------------------------------------------------


def higher_stamp_taken(lot, stamp):
    return stamp >= lot.stamp


def lower_stamp_taken(lot, stamp):
    return stamp <= lot.stamp


def any_stamp_taken(lot, stamp):
    return True


def stamp_before_taken(lot, stamp):
    return stamp in (lot.stamp, lot.stamp - 1)


def stamp_after_taken(lot, stamp):
    return stamp in (lot.stamp, lot.stamp + 1)


def first_stamp_always_taken(lot, stamp):
    return stamp in (0, lot.stamp)


def last_stamp_always_taken(lot, stamp):
    return stamp in (lot.stamp, LARGEST_STAMP)


def first_job_without_a_stamp(lot, stamp):
    return stamp == lot.stamp or lot.job == 0


def stamps_compared_by(bits):
    return lambda lot, stamp: (stamp - lot.stamp) % 2**bits == 0


def second_of_two_holders_stored(lot, stamp):
    return stamp == lot.stamp or stamp == lot.stamp - 1 and lot.job != 0


# --- What is stored ---------------------------------------------------------------------------------------------------


def stamp_not_raised(stamp):
    return stamp


def stamp_raised_by_2(stamp):
    return stamp + 2 if stamp < LARGEST_STAMP - 1 else LARGEST_STAMP


def stamp_raised_to_the_next_even(stamp):
    return stamp + 2 - stamp % 2 if stamp < LARGEST_STAMP - 1 else LARGEST_STAMP


def stamp_kept_to(bits):
    return lambda stamp: (stamp + 1) % 2**bits


def never_last(stamp):
    return False


def stamp_wraps_to(first):
    """Assignments that store at 65,535 too; the stamp goes on from another one."""
    def assign(board, party, place, stamp, job, right=table.assign):
        after, told = right(board, party, place, stamp, job)
        if told.refusal != LAST_STAMP:
            return after, told
        return {**board, place: Owned(party, Lot(board[place].lot.record, job, first))}, Told()
    return assign


def changed_where_refused(number, change):
    """Assignments that are refused with a number and change the lot of the place all the same."""
    def assign(board, party, place, stamp, job, right=table.assign):
        after, told = right(board, party, place, stamp, job)
        if told.refusal != number or place not in board:
            return after, told
        owner, lot = board[place]
        return {**board, place: Owned(owner, change(lot, job))}, told
    return assign


def with_the_job(lot, job):
    return lot._replace(job=job)


def with_no_job(lot, job):
    return lot._replace(job=0)


def with_the_next_stamp(lot, job):
    return lot._replace(stamp=(lot.stamp + 1) % 2**16)


def with_the_first_stamp(lot, job):
    return lot._replace(stamp=0)


def no_board_where_refused(board, party, place, stamp, job, assign=table.assign):
    after, told = assign(board, party, place, stamp, job)
    return ({} if told.refusal else after), told


def job_0_refused(board, party, place, stamp, job, assign=table.assign):
    after, told = assign(board, party, place, stamp, job)
    return (after, told) if job or told.refusal else (board, Told(STALE_STAMP, stamp))


def job_0_not_stored(lot, job, stored=table.stored):
    return stored(lot, job or lot.job)


def job_0_keeps_the_stamp(lot, job, stored=table.stored):
    return stored(lot, job) if job else lot._replace(job=0)


def job_0_gives_the_first_stamp(lot, job, stored=table.stored):
    return stored(lot, job) if job else lot._replace(job=0, stamp=0)


def same_job_keeps_the_stamp(lot, job, stored=table.stored):
    return lot if job == lot.job else stored(lot, job)


def first_job_stays(lot, job, stored=table.stored):
    return stored(lot, lot.job or job)


def larger_job_stays(lot, job, stored=table.stored):
    return stored(lot, max(job, lot.job))


def lot_with_a_job_refused(lot, stamp, job, refused=table.refused):
    return refused(lot, stamp, job) or (Told(STALE_STAMP, lot.stamp) if lot.job else None)


def job_kept_to(bits):
    return lambda lot, job, stored=table.stored: stored(lot, job % 2**bits)


def largest_job_is_none(lot, job, stored=table.stored):
    return stored(lot, (job + 1) % 2**32 and job)


def duv_cut_to_16_bits(lot, job, stored=table.stored):
    after = stored(lot, job)
    return after._replace(record=with_duv(in_16_bits)(*lot.record))


def record_lost(lot, job, stored=table.stored):
    return stored(lot, job)._replace(record=NO_RECORD)


def job_not_stored(lot, job, stored=table.stored):
    return stored(lot, lot.job)


# --- Other places -----------------------------------------------------------------------------------------------------


def others_changed(change):
    """Assignments that change other places too where they are stored."""
    def assign(board, party, place, stamp, job, right=table.assign):
        after, told = right(board, party, place, stamp, job)
        return (after if told.refusal else change(board, after, place)), told
    return assign


def every_stamp_raised(before, after, place):
    return with_lots(after, lambda at, owner, lot: stamp_raised(before[at].lot))


def stamps_of_the_other_house_raised(before, after, place):
    return with_lots(after, lambda at, owner, lot: lot if owner == after[place].owner else stamp_raised(lot))


def every_lot_of_that_record_assigned(before, after, place):
    return with_lots(after, lambda at, owner, lot: after[place].lot if lot.record == after[place].lot.record else lot)


def next_place_assigned(before, after, place):
    following = (place + 1) % len(before)
    return {**before, following: Owned(before[following].owner, after[place].lot)}


def job_taken_from_the_lot_that_had_it(before, after, place):
    job = after[place].lot.job
    return with_lots(after, lambda at, owner, lot: lot._replace(job=0) if job == lot.job and at != place else lot)


def job_taken_from_the_other_house(before, after, place):
    owner, (_, job, _) = after[place]
    return with_lots(after, lambda at, other, lot: lot._replace(job=0) if job == lot.job and other != owner else lot)


def lot_handed_to_the_other_house(before, after, place):
    owner, lot = after[place]
    return {**after, place: Owned(OURS if owner == PARTNER else PARTNER, lot)}


def lot_handed_to_us(before, after, place):
    return {**after, place: Owned(OURS, after[place].lot)}


def job_of_the_other_house_refused(board, party, place, stamp, job, assign=table.assign):
    after, told = assign(board, party, place, stamp, job)
    taken = job and any(owned.lot.job == job and owned.owner != party for owned in board.values())
    return (board, Told(STALE_STAMP, stamp)) if taken and not told.refusal else (after, told)


WRONG_BOARD_RULES = (
    *(("MOST_LOTS", most) for most in (63, 65, 471)),
    *(("refused_load", wrong) for wrong in (
        refused_load_keeps_the_first_64, refused_load_keeps_all_lots, refused_load_keeps_our_lots, refused_load_keeps_their_lots,
        refused_load_gives_one_lot_of_zeros, first_64_loaded, last_64_loaded, ours_alone_loaded, too_many_gives_11)),
    *(("load", count_wraps_at(bits), "the counts of a load kept to %d bits" % bits) for bits in (6, 8, 16)),
    *(("load", sum_wraps_at(bits), "the sum of both counts kept to %d bits" % bits) for bits in (6, 8, 16)),
    *(("counted", wrong) for wrong in (
        our_lots_counted, their_lots_counted, longer_list_counted, one_more_counted_where_both_have_lots,
        one_less_counted_where_both_have_lots)),
    *(("counted", counted_in(of_both=bits), "both lists counted in %d bits" % bits) for bits in (8, 16)),
    *(("counted", counted_in(of_ours=bits), "our list counted in %d bits" % bits) for bits in (8, 16)),
    *(("counted", counted_in(of_theirs=bits), "their list counted in %d bits" % bits) for bits in (8, 16)),
    *(("load", wrong) for wrong in (
        no_records_refused, house_without_records_refused, theirs_only_beside_ours, as_many_of_each, theirs_no_more_than_ours,
        lists_swapped, duv_beyond_16_bits_refused)),
    *(("at_loading", loaded_with(change), "loaded with " + words(change)) for change in map(with_duv, (
        in_16_bits, in_16_bits_without_a_sign, held_within(32_767), held_within(50_000)))),
    *(("of_house", theirs_loaded_with(change), "theirs loaded with " + words(change)) for change in map(with_duv, (
        in_16_bits, in_16_bits_without_a_sign, held_within(50_000)))),
    *(("placed", in_each_list(change)) for change in (
        last_record_first, same_record_once, in_the_order_of_u, record_of_zeros_left_out)),
    *(("placed", wrong) for wrong in (
        places_from_1, one_more_place, one_more_place_of_ours, by_the_place_of_the_record, first_job_the_place, first_stamp_the_place,
        first_job_the_owner, first_stamp_the_owner)),
    *(("placed", theirs_placed_from(first), title) for title, first in FIRST_OF_THEIRS.items()),
    *(("in_a_row", wrong) for wrong in (
        theirs_first, theirs_first_for_ours, in_turn, theirs_from_the_last_record_on, record_that_we_have_left_out)),
    *(("in_a_row", owned_by(is_ours), title) for title, is_ours in OWNERS.items()),
    ("NO_JOB", 1), ("FIRST_STAMP", 1),
    ("listed", as_long_as_the_longest), ("listed", none_where_lengths_differ),
    *(("listed", as_long_as(at), "a board as long as column %d" % at) for at in range(8)),
    *(("lot_at", wrong) for wrong in (
        next_place_taken, place_held_to_the_last, last_place_left_out, places_from_the_end, below_zero_from_the_end, empty_slots_are_lots)),
    *(("lot_at", place_kept_to(bits), "the place kept to %d bits" % bits) for bits in (6, 8, 16, 32, 63)),
    *(("may_touch", wrong) for wrong in (
        either_reaches_both, partner_reaches_both, we_reach_both, partner_reaches_nothing, we_reach_nothing, parties_swapped)),
    *(("lot_at", wrong) for wrong in (partner_counts_from_0, partner_counts_from_the_end)),
    *(("lot_at", reaches(holds), title) for title, holds in BEYOND.items()),
    *(("lot_at", only_where(holds), title) for title, holds in WITHIN.items()),
    ("read", any_lot_read), ("assign", any_lot_assigned),
    *(("assign", wrong) for wrong in (only_read_by_the_partner, any_stamp_of_the_partner_taken)),
    *(("assign", told_of_the_other(tell), "an assignment of the other's lot is told " + title)
      for title, tell in TOLD_OF_THE_OTHER.items()),
    *(("read", read_of_the_other(tell), "a read of the other's lot is told " + title) for title, tell in READ_OF_THE_OTHER.items()),
    ("read", lot_without_a_job_not_there),
    ("read", changed_by_a_read(stamp_raised), "a read raises the stamp"),
    ("read", changed_by_a_read(job_cleared), "a read clears the job"),
    *(("told_lot", wrong) for wrong in (
        read_tells_the_stamp_too, read_tells_no_job, read_tells_no_stamp, read_tells_no_record, read_tells_low_and_high_swapped,
        read_tells_duv_without_its_sign)),
    *(("told_no_place", wrong) for wrong in (
        refused_read_tells_a_lot, no_place_tells_the_stamp_named, no_place_tells_the_place, no_place_gives_18)),
    *(("assign", wrong) for wrong in (stale_before_no_place, last_before_no_place)),
    *(("refused", wrong) for wrong in (last_before_stale, last_by_the_stamp_named, lot_with_a_job_refused)),
    *(("told_stale", wrong) for wrong in (
        stale_tells_no_stamp, stale_tells_the_stamp_named, stale_tells_the_next_stamp, stale_tells_the_stamp_before,
        stale_tells_no_stamp_at_65535, stale_tells_the_lot, stale_gives_17)),
    *(("told_last", wrong) for wrong in (last_tells_the_stamp, last_tells_the_lot, last_gives_18)),
    *(("told_stored", wrong) for wrong in (
        stored_tells_the_new_stamp, stored_tells_the_old_stamp, stored_tells_the_lot, stored_tells_the_lot_before)),
    *(("is_current", wrong) for wrong in (
        higher_stamp_taken, lower_stamp_taken, any_stamp_taken, stamp_before_taken, stamp_after_taken, first_stamp_always_taken,
        last_stamp_always_taken, first_job_without_a_stamp, second_of_two_holders_stored)),
    *(("is_current", stamps_compared_by(bits), "stamps compared by %d bits" % bits) for bits in (8, 15)),
    *(("raised", wrong) for wrong in (stamp_not_raised, stamp_raised_by_2, stamp_raised_to_the_next_even)),
    *(("raised", stamp_kept_to(bits), "the stamp kept to %d bits" % bits) for bits in (8, 15)),
    *(("LARGEST_STAMP", largest) for largest in (LARGEST_STAMP - 1, 2**15 - 1)),
    ("is_last", never_last),
    *(("assign", stamp_wraps_to(first), "stored at 65,535, with %d for the next stamp" % first) for first in (0, 1, LARGEST_STAMP)),
    *(("assign", changed_where_refused(number, change), "refused with %d, and %s" % (number, change.__name__.replace("_", " ")))
      for number in (NO_SUCH_PLACE, STALE_STAMP, LAST_STAMP)
      for change in (with_the_job, with_no_job, with_the_next_stamp, with_the_first_stamp)),
    *(("assign", wrong) for wrong in (no_board_where_refused, job_0_refused, job_of_the_other_house_refused)),
    *(("stored", wrong) for wrong in (
        job_0_not_stored, job_0_keeps_the_stamp, job_0_gives_the_first_stamp, same_job_keeps_the_stamp, first_job_stays, larger_job_stays,
        largest_job_is_none, record_lost, duv_cut_to_16_bits, job_not_stored)),
    *(("stored", job_kept_to(bits), "the job kept to %d bits" % bits) for bits in (16, 31)),
    *(("assign", others_changed(change), "stored, and " + change.__name__.replace("_", " ")) for change in (
        every_stamp_raised, stamps_of_the_other_house_raised, every_lot_of_that_record_assigned, next_place_assigned,
        job_taken_from_the_lot_that_had_it, job_taken_from_the_other_house, lot_handed_to_the_other_house, lot_handed_to_us)),
)


# --- What only C can be asked -----------------------------------------------------------------------------------------


def any_other_number_is_the_partner(party, owner):
    return min(party, PARTNER) == owner


def any_other_number_is_ours(party, owner):
    return (party if party in PARTIES else OURS) == owner


def any_other_number_reaches_both(party, owner):
    return party == owner or party not in PARTIES


def party_kept_to(bits):
    return lambda party, owner: party % 2**bits == owner


def columns_joined(ours, theirs):
    """The list of both houses' columns one after the other, cut where our list ends."""
    together, count = table.listed([[*first, *second] for first, second in zip(ours, theirs)]), len(table.listed(ours))
    return table.load(together[:count], together[count:])


WRONG_C_BOARD_RULES = (
    *(("may_touch", wrong) for wrong in (any_other_number_is_the_partner, any_other_number_is_ours, any_other_number_reaches_both)),
    *(("may_touch", party_kept_to(bits), "the party kept to %d bits" % bits) for bits in (1, 4, 7)),
    ("load_columns", columns_joined),
)
