"""What `--help` prints, in lines that fit a terminal of 80 columns."""

STATUS = """
Exit status:
  0  all was answered
  1  something was refused
  2  something could not be read, written or understood
"""

HELP = """./sneupelaar settle [FILE...]        settles hour files, prints their statements
./sneupelaar check [FILE...]         tells whether hour files are accepted
./sneupelaar explain MEMBER [FILE]   tells why a member's charge is what it is
./sneupelaar pack [SHEET] > FILE     makes an hour file of a spreadsheet's CSV
./sneupelaar unpack [FILE] > SHEET   makes CSV of an hour file
./sneupelaar write [WORDS] > FILE    makes an hour file of raw words

An hour file is hourly or by ten minutes, and says so itself: settle, check,
pack and unpack take both kinds, explain and write the hourly one.

Where no file is named, or -, standard input is read. Standard output has what
the proved programs print; a refusal is `refused NUMBER at PLACE` there, and
standard error says in words what is wrong.

  -q, --quiet  no words for a refusal
  -h, --help   this, or with a verb more about it

The first run proves and builds the programs that it needs. This takes some
minutes, and is said.
""" + STATUS

HELPS = {
    "settle": """./sneupelaar settle [--quiet] [FILE...]

Settles hour files and prints their statements: a line for the hour, and for
each member its charge and its final amount; of a ten-minute file its charge
alone. Of several files each statement stands under its file's name.

All are answered, whatever is wrong with one of them, the hourly ones by one
program; where standard error is a terminal, a line there shows how many are
done. Of a file no more is read than the longest hour file has, and a byte.
""" + STATUS,
    "check": """./sneupelaar check [--quiet] [FILE...]

Tells of each hour file `accepted`, where settling settles it, or the refusal.
Of several files the answers stand behind their names.
""" + STATUS,
    "explain": """./sneupelaar explain [--quiet] MEMBER [FILE]

Tells why a member's charge is what it is: what it is made of under five heads,
in grains (10,000,000 are a cent), and the head that decided. Members are
numbered from 0. A ten-minute file has no explanation.
""" + STATUS,
    "pack": """./sneupelaar pack [--quiet] [SHEET] > FILE

Makes an hour file of a sheet, as docs/SHEETS.md has it: CSV in UTF-8, with
commas or semicolons. What is no whole number, or stands in no column, is said
with its row and column, and nothing is written.

The sheet says which kind of hour it is. An hourly file is written by the
proved writer; a ten-minute file is written here, and only if the proved
program accepts it. If that or the writer refuses, its line stands in the
file's place, and standard error has the row and the column.
""" + STATUS,
    "unpack": """./sneupelaar unpack [--quiet] [--semicolons] [FILE] > SHEET

Makes a sheet of an hour file, as docs/SHEETS.md has it. Packed again, it is
the same file: that is tried before anything is written.

  --semicolons  between the fields, for spreadsheets that write decimals with a
                comma
""" + STATUS,
    "write": """./sneupelaar write [--quiet] [WORDS] > FILE

Makes an hourly file of a head and records, given as words of 32 bits
(docs/FORMAT.md, "Writing a file"). If they are refused, the refusal's line
stands in the file's place.
""" + STATUS}
