"""A refusal in words: what is wrong, where, what the value is and what it may be. Number and place are a proved program's; the bytes are
only looked up again, to say what stands there."""

from hour import (ACTUAL, AREA, BLOCK_BYTES, BLOCK_WORDS, FIRST_WORD, HEAD_BYTES, KIND, KINDS, LOADS, LONGEST_WORDS, MAXIMUM, MEMBER,
                  MEMBERS, RECORD_BYTES, SCHEDULED, Hour, value_of, words_in)
from ten_minute_hour import form_of

# The rows of text amounts and of buffers, which no file, question or sheet brings about.
ELSEWHERE = {
    8: "an amount to be written is out of its range", 9: "a field is shorter than the amount's text",
    10: "a field holds no amount's text", 11: "a buffer lent for the results is too short"}


def beyond(value, field):
    """Why a value isn't one that its field may have."""
    return f"{value} is above {field.high}" if value > field.high else f"{value} is below {field.low}"


# ---- Blocks

def of_length(data):
    longest = form_of(data).longest_file()
    length = f"more than {longest}" if len(data) > longest else len(data)
    return f"the file has {length} bytes; it may have {BLOCK_BYTES} to {longest}, in whole blocks of {BLOCK_BYTES}"


def of_sum(data, block):
    return f"block {block}: its words add up to {sum(words_of_block(data, block)) % 2**32} modulo 2^32, and must to 0"


def of_layout(data, block):
    """The first word of the block that isn't as its place asks."""
    form, words, blocks = form_of(data), words_of_block(data, block), len(data) // BLOCK_BYTES
    for word, name, low, high in first_layout(form, blocks) if block == 0 else other_layout(form, block, blocks, words[2]):
        if not low <= words[word] <= high:
            return f"block {block}: {name} is {words[word]} and must be {low if low == high else f'{low} to {high}'}"
    return f"block {block} is not as its place in the file asks"


def first_layout(form, blocks):
    """The words that a layout asks something of: each with what it is, and from what to what it may go."""
    mark, behind = form.FIRST_MARK, blocks - 1
    return [(0, "its first word", mark, mark), (1, "its position", 0, 0), (2, "the number of blocks behind it", behind, behind),
            *zeros(3, 7)]


def other_layout(form, block, blocks, records):
    mark, most = form.OTHER_MARK, form.BLOCK_RECORDS
    fewest = 1 if block == blocks - 1 else most
    behind = FIRST_WORD + form.RECORD_WORDS * min(records, most)
    return [(0, "its first word", mark, mark), (1, "its position", block, block), (2, "the number of its records", fewest, most),
            *zeros(3, 7), *zeros(behind, BLOCK_WORDS, ", behind its last record,")]


def zeros(first, end, where=""):
    return [(word, f"word {word}{where}", 0, 0) for word in range(first, end)]


def words_of_block(data, block):
    return words_in(data[BLOCK_BYTES * block:BLOCK_BYTES * (block + 1)])


# ---- Words: each says which word it is, too

def of_head(hour, word):
    field = hour.head_field(word)
    if field is None:
        return word, f"word {word} is {hour.head[word]} and must be 0"
    return word, f"{field.name}: {beyond(value_of(hour.head[word], field), field)}"


def of_record(hour, index):
    """The first word of the record that its kind, the counts or the ranges don't take."""
    record = hour.records[index]
    if not 1 <= record[KIND] <= len(KINDS):
        return KIND, f"record {index}: kind {record[KIND]} is none of 1 to {len(KINDS)} ({', '.join(KINDS)})"
    for word in range(MEMBER, hour.RECORD_WORDS):
        field, name = hour.record_field(index, word), hour.word_name(word)
        value = value_of(record[word], field) if field else record[word]
        if field is None and value != 0:
            return word, f"record {index} ({whose(record)}): {name} is {value} and must be 0"
        if field is not None and not field.low <= value <= field.high:
            between = ": " if name[-1].isdigit() else " "  # so that an interval's number is not read as part of the value
            return word, f"record {index} ({whose(record, word)}): {name}{between}{beyond(value, field)}"
    return KIND, f"record {index} is not as its kind asks"


def of_schedule(hour, index):
    record = hour.records[index]
    return SCHEDULED, f"record {index} ({whose(record)}): scheduled {record[SCHEDULED]} is above its maximum {record[MAXIMUM]}"


def whose(record, wrong=None):
    """A record's member, where that isn't what is wrong, and its kind."""
    kind = KINDS[record[KIND] - 1]
    return kind if wrong == MEMBER else f"member {record[MEMBER]}, {kind}"


# ---- Sums

def of_area(hour, area):
    taken = sum(record[ACTUAL] for record in hour.records if record[KIND] in LOADS and record[AREA] == area)
    return f"area {area}: nobody can be given its unaccounted for energy; its loads' actual adds up to {taken}, and must to 1 or more"


def of_amount(member):
    """No amount of a file gets there: its ranges are too small."""
    return f"member {member}: its amount is beyond 4000000000000000000 grains"


def of_demand(hour):
    taken = sum(record[ACTUAL] for record in hour.records if record[KIND] in LOADS)
    return f"nobody can be given what the charges leave over; the loads' actual adds up to {taken}, and must to 1 or more"


def of_member(hour, member):
    return f"member {member} is above {hour.head[MEMBERS] - 1}: the hour has {hour.head[MEMBERS]}, from 0 on"


# ---- All

def of_words(number, place, hour):
    """Why a word of an hour is refused by row 4, 5 or 14, and which it is."""
    return {4: of_head, 5: of_record, 14: of_schedule}[number](hour, place)


def of_file(number, place, data, member=None):
    """Why a file, or what was asked about a member of it, is refused."""
    if number in ELSEWHERE:
        return ELSEWHERE[number]
    if number == 1:
        return of_length(data)
    if number == 2:
        return of_sum(data, place)
    if number == 3:
        return of_layout(data, place)
    if number == 7:
        return of_amount(place)
    hour = form_of(data).of_file(data)
    if number == 6:
        return of_area(hour, place)
    if number == 12:
        return of_demand(hour)
    if number == 13:
        return of_member(hour, member)
    return of_words(number, place, hour)[1]


def of_raw(number, place, data):
    """Why raw words are not written."""
    if number == 1:
        length = f"more than {LONGEST_WORDS}" if len(data) > LONGEST_WORDS else len(data)
        return f"there are {length} bytes of words; a head has {HEAD_BYTES}, and each of at most {Hour.MOST_RECORDS} records {RECORD_BYTES}"
    return of_words(number, place, Hour.of_words(data))[1]
