/* writing.c: trials of writing hour files. */
#include <string.h>

#include "chance.h"
#include "guard.h"
#include "hours.h"
#include "trials.h"

enum { ROOM_HEAD = HEAD_WORDS + RECORD_WORDS, ROOM_RECORDS = BLOCK_RECORDS * (MADE_BLOCKS - 1), ROOM_WORDS = RECORD_WORDS * ROOM_RECORDS };
enum { ROOM_BYTES = (MADE_BLOCKS + 1) * BLOCK_BYTES };

typedef struct {
    size_t head, records, file;
} lengths;

static guarded head_room, records_room, file_room;
static hour_file hour;
static uint32_t head[ROOM_HEAD], records[ROOM_WORDS];

/* The hand's file; what the archive is lent holds the same bytes before. */
static uint8_t before[ROOM_BYTES], by_hand[ROOM_BYTES];

static void make_rooms(void)
{
    if (head_room.pages != NULL)
        return;
    head_room = guard_room(sizeof head);
    records_room = guard_room(sizeof records);
    file_room = guard_room(sizeof before);
}

/* The bodies of an hour's blocks, one behind the other: the records past its last are zeros. */
static void take_apart(void)
{
    memcpy(head, hour.words + BODY_WORD, 4 * HEAD_WORDS);
    for (size_t block = 1; block < MADE_BLOCKS; block++)
        memcpy(records + HEAD_WORDS * (block - 1), hour.words + BLOCK_WORDS * block + BODY_WORD, 4 * HEAD_WORDS);
}

/* A head and records as long as the hour's, mostly; a word too long or too short, more than 250 records, or anything. */
static void choose_words(lengths *chosen)
{
    chosen->head = HEAD_WORDS;
    chosen->records = RECORD_WORDS * hour.records;
    if (once_in(24))
        chosen->head = once_in(4) ? below(ROOM_HEAD + 1) : HEAD_WORDS - 1 + 2 * below(2);
    if (once_in(24))
        chosen->records = once_in(4) ? below(ROOM_WORDS + 1) : chosen->records + 1;
    if (once_in(24))
        chosen->records = RECORD_WORDS * (MOST_RECORDS + 1 + below(ROOM_RECORDS - MOST_RECORDS));
    if (once_in(24)) /* a record that is all zeros */
        chosen->records += RECORD_WORDS * (hour.records < MOST_RECORDS);
}

/* A file just long enough, longer, too short by one, or anything. */
static lengths choose_lengths(void)
{
    lengths chosen;
    choose_words(&chosen);
    size_t count = chosen.records / RECORD_WORDS, enough = BLOCK_BYTES * (1 + (count + BLOCK_RECORDS - 1) / BLOCK_RECORDS);
    chosen.file = once_in(2) ? enough : (size_t)between((int64_t)enough, ROOM_BYTES);
    if (once_in(6))
        chosen.file = enough - 1;
    if (once_in(16))
        chosen.file = once_in(4) ? 0 : below(ROOM_BYTES + 1);
    return chosen;
}

/* The file that was written passes the reader's rows 1 to 5 and 14; of an hour that was only taken apart it is that hour. */
static void look_at_file(size_t length, int as_made)
{
    must(examine(file_room.at, length).number == 0, "what is written is not read");
    if (as_made)
        must(length == hour.bytes && memcmp(file_room.at, hour.words, length) == 0, "what is written is not the hour");
}

static void compare_files(void)
{
    must(memcmp(file_room.at, by_hand, file_room.length) == 0, "the file differs");
    const guarded *rooms[] = { &head_room, &records_room, &file_room };
    for (size_t at = 0; at < sizeof rooms / sizeof *rooms; at++)
        must(guard_kept(rooms[at]), "a byte beside a buffer was written");
}

void try_writing_hour(write_hour_function *write_hour)
{
    make_rooms();
    make_hour(&hour);
    int damaged = once_in(2);
    if (damaged)
        damage_hour(&hour);
    take_apart();
    lengths lent = choose_lengths();
    memset(before, (int)below(256), sizeof before);
    memcpy(by_hand, before, sizeof before);
    const uint32_t *lent_head = guard_lend(&head_room, head, 4 * lent.head);
    const uint32_t *lent_records = guard_lend(&records_room, records, 4 * lent.records);
    uint8_t *file = guard_lend(&file_room, before, lent.file);
    guard_only_read(&head_room);
    guard_only_read(&records_room);
    standing.function = "sneupelaar_write_hour";
    sneupelaar_written written = write_hour(lent_head, lent.head, lent_records, lent.records, file, lent.file);
    sneupelaar_written wanted = hand_write_hour(head, lent.head, records, lent.records, by_hand, lent.file);
    must(written.number == wanted.number && written.place == wanted.place && written.length == wanted.length, "the answer differs");
    compare_files();
    if (written.number == 0)
        look_at_file(written.length, !damaged && lent.records == RECORD_WORDS * hour.records);
    seen.hours_written[written.number]++;
}
