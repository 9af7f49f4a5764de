"""What the command can do. Each verb hands bytes to a proved program, prints what that prints, and answers the exit status."""

import os

import proved
import reasons
from hour import LONGEST_FILE, LONGEST_WORDS
from streams import PROGRESS, STANDARD_INPUT, Trouble, name_of, read, say, write
from ten_minute_hour import TenMinuteHour, form_of

ANSWERED, REFUSED, TROUBLE = 0, 1, 2
WORD_ROWS = (1, 2, 3, 4, 5, 14)  # what can be wrong with a file's words; the other rows are about its sums


def files_of(asked):
    return asked.words or [STANDARD_INPUT]


def file_of(asked):
    """One at most."""
    if len(asked.words) > 1:
        raise Trouble(f"{asked.verb} takes one file: see ./sneupelaar {asked.verb} --help")
    return files_of(asked)[0]


def status_of(asked, path, printed, why):
    """Says in words why something was refused, where it was, unless nobody wants to hear it. `why` makes the words of number and place."""
    if not proved.is_refused(printed):
        return ANSWERED
    if not asked.quiet:
        say(f"{name_of(path)}: {printed.decode().rstrip()}: {why(*proved.refusal_in(printed))}")
    return REFUSED


# ---- Several hours

def settle(asked):
    return each_hour(asked, "settled", b":\n", lambda statement: statement)


def check(asked):
    return each_hour(asked, "checked", b": ", lambda statement: statement if proved.is_refused(statement) else b"accepted\n")


def each_hour(asked, what, behind_name, shown):
    """One program is started for all hourly ones, and each is answered, whatever is wrong with another. Of several each answer has its
    file's name before it."""
    files, status = files_of(asked), ANSWERED
    with proved.Statements() as statements:
        for done, path in enumerate(files):
            if done > 0:
                PROGRESS.show(f"{what} {done} of {len(files)}")
            try:
                data = read(path, LONGEST_FILE + 1)
            except Trouble as trouble:
                say(f"sneupelaar: {trouble}")
                status = TROUBLE
                continue
            statement = statements.of(data)
            write((os.fsencode(name_of(path)) + behind_name if len(files) > 1 else b"") + shown(statement))
            status = max(status, status_of(asked, path, statement, lambda *refusal: reasons.of_file(*refusal, data)))
    PROGRESS.clear()
    return status


# ---- One hour

def answer(asked, path, program, data, why):
    """What the program prints of these bytes."""
    printed = proved.printed_by(program, data)
    write(printed)
    return status_of(asked, path, printed, why)


def explain(asked):
    if not asked.words:
        raise Trouble("explain takes a member's number and a file: see ./sneupelaar explain --help")
    member = member_in(asked.words.pop(0))
    path = file_of(asked)
    data = read(path, LONGEST_FILE + 1)
    if form_of(data) is TenMinuteHour:
        raise Trouble(f"{name_of(path)}: a ten-minute file has no explanation; explain takes an hourly one")
    question = member.to_bytes(4, "little") + data
    return answer(asked, path, "explanation", question, lambda *refusal: reasons.of_file(*refusal, data, member))


def member_in(word):
    digits = word.lstrip("0") or word[-1:]
    if not (digits.isascii() and digits.isdigit() and len(digits) <= 10 and int(digits) < 2**32):
        raise Trouble(f"{word!r} is no member's number")
    return int(digits)


def pack(asked):
    import sheets  # here and in unpack: settling needn't wait for it
    path = file_of(asked)
    try:
        packed = sheets.Packed(read(path, sheets.MOST_BYTES + 1))
    except sheets.Unclear as unclear:
        raise Trouble(f"{name_of(path)}: {unclear}") from unclear
    printed = file_or_refusal(packed)
    write(printed)
    return status_of(asked, path, printed, packed.reason)


def file_or_refusal(packed):
    """The file of a packed sheet, or a refusal's line. An hourly file is the proved writer's own; a ten-minute one is made here, and handed
    on only where the proved program settles it."""
    if packed.form is not TenMinuteHour:
        return proved.printed_by("write_hour", packed.hour().words())
    file = packed.hour().file()
    statement = proved.printed_by("ten_minutes", file)
    return statement if proved.is_refused(statement) else file


def unpack(asked):
    """A file whose sums can't be made is unpacked too, since its sheet is where that is mended."""
    import sheets
    path = file_of(asked)
    data = read(path, LONGEST_FILE + 1)
    with proved.Statements() as statements:
        statement = statements.of(data)
    if proved.is_refused(statement) and proved.refusal_in(statement)[0] in WORD_ROWS:
        write(statement)
        return status_of(asked, path, statement, lambda *refusal: reasons.of_file(*refusal, data))
    sheet = sheets.sheet_of(data, ";" if asked.semicolons else ",")
    if file_or_refusal(sheets.Packed(sheet)) != data:
        raise Trouble(f"{name_of(path)}: its sheet would not be packed as the same file, so it is not written")
    write(sheet)
    return ANSWERED


def write_words(asked):
    path = file_of(asked)
    data = read(path, LONGEST_WORDS + 1)
    return answer(asked, path, "write_hour", data, lambda *refusal: reasons.of_raw(*refusal, data))


VERBS = {"settle": settle, "check": check, "explain": explain, "pack": pack, "unpack": unpack, "write": write_words}
