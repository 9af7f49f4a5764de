/* settling.c: trials of settling and of the block reader. */
#include <string.h>

#include "chance.h"
#include "guard.h"
#include "hours.h"
#include "trials.h"

enum { ROOM_LINES = 40, ROOM_RECORDS = 260 };

typedef struct {
    size_t lines, charges, finals, shares, deviations;
} lengths;

/* The hand's buffers; what the archive is lent holds the same bytes before. */
typedef struct {
    sneupelaar_line lines[ROOM_LINES];
    int64_t charges[ROOM_LINES], finals[ROOM_LINES], shares[ROOM_RECORDS], deviations[ROOM_RECORDS];
} buffers;

static guarded file_room, lines_room, charges_room, finals_room, shares_room, deviations_room;
static hour_file hour;
static buffers before, by_hand;

static void make_rooms(void)
{
    if (file_room.pages != NULL)
        return;
    file_room = guard_room(sizeof hour.words);
    lines_room = guard_room(sizeof before.lines);
    charges_room = guard_room(sizeof before.charges);
    finals_room = guard_room(sizeof before.finals);
    shares_room = guard_room(sizeof before.shares);
    deviations_room = guard_room(sizeof before.deviations);
}

/* Just enough, more, one too short by one, or anything. */
static lengths choose_lengths(void)
{
    size_t members = hour.members, records = hour.records;
    lengths chosen = { members, members, members, records, records };
    size_t *each[] = { &chosen.lines, &chosen.charges, &chosen.finals, &chosen.shares, &chosen.deviations };
    const size_t most[] = { ROOM_LINES, ROOM_LINES, ROOM_LINES, ROOM_RECORDS, ROOM_RECORDS };
    enum { LENGTHS = sizeof most / sizeof *most };
    for (size_t at = 0; at < LENGTHS; at++)
        if (once_in(2))
            *each[at] = (size_t)between((int64_t)*each[at], (int64_t)most[at]);
    if (once_in(6)) {
        size_t at = below(LENGTHS);
        size_t enough = at < 3 ? members : records;
        *each[at] = enough > 0 ? enough - 1 : 0;
    }
    if (once_in(16))
        for (size_t at = 0; at < LENGTHS; at++)
            *each[at] = once_in(4) ? 0 : below(most[at] + 1);
    return chosen;
}

static int same_answer(const sneupelaar_settled *one, const sneupelaar_settled *other)
{
    return one->number == other->number && one->place == other->place && memcmp(one->ufe, other->ufe, sizeof one->ufe) == 0;
}

/* Lines that were written are compared by their two numbers, since the bytes between lines are nobody's; all others byte by byte. */
static int same_lines(size_t length, size_t written)
{
    const sneupelaar_line *lines = (const sneupelaar_line *)lines_room.at;
    for (size_t at = 0; at < written; at++)
        if (lines[at].amount != by_hand.lines[at].amount || lines[at].records != by_hand.lines[at].records)
            return 0;
    return memcmp(lines + written, by_hand.lines + written, (length - written) * sizeof *lines) == 0;
}

static int same_numbers(const guarded *room, const int64_t *by_hand_numbers)
{
    return memcmp(room->at, by_hand_numbers, room->length) == 0;
}

static void compare_buffers(lengths lent, uint64_t number)
{
    must(same_lines(lent.lines, number == 0 ? hour.words[MEMBERS] : 0), "a line differs");
    must(same_numbers(&charges_room, by_hand.charges), "a charge differs");
    must(same_numbers(&finals_room, by_hand.finals), "a final differs");
    must(same_numbers(&shares_room, by_hand.shares), "a share differs");
    must(same_numbers(&deviations_room, by_hand.deviations), "a deviation differs");
    const guarded *rooms[] = { &file_room, &lines_room, &charges_room, &finals_room, &shares_room, &deviations_room };
    for (size_t at = 0; at < sizeof rooms / sizeof *rooms; at++)
        must(guard_kept(rooms[at]), "a byte beside a buffer was written");
}

/* Every position, the first that is not there, and ones whose bytes could not be counted. */
static void try_bodies(body_function *body)
{
    static const size_t far[] = { (size_t)1 << 23, (size_t)1 << 55, ((size_t)1 << 55) - 1, SIZE_MAX / 512, SIZE_MAX - 1, SIZE_MAX };
    standing.function = "sneupelaar_body";
    guard_untouchable(&file_room); /* it looks at the length only */
    for (size_t at = 0; at <= MADE_BLOCKS + sizeof far / sizeof *far; at++) {
        size_t block = at <= MADE_BLOCKS ? at : far[at - MADE_BLOCKS - 1];
        sneupelaar_part part = body(file_room.at, hour.bytes, block), wanted = hand_body(file_room.at, hour.bytes, block);
        must(part.from == wanted.from && part.length == wanted.length, "the part differs");
        seen.bodies++;
    }
}

void try_settling(settle_function *settle, body_function *body)
{
    make_rooms();
    make_hour(&hour);
    if (once_in(2))
        damage_hour(&hour);
    lengths lent = choose_lengths();
    random_bytes(&before, sizeof before);
    by_hand = before;
    const uint8_t *file = guard_lend(&file_room, hour.words, hour.bytes);
    sneupelaar_line *lines = guard_lend(&lines_room, before.lines, lent.lines * sizeof *lines);
    int64_t *charges = guard_lend(&charges_room, before.charges, lent.charges * sizeof *charges);
    int64_t *finals = guard_lend(&finals_room, before.finals, lent.finals * sizeof *finals);
    int64_t *shares = guard_lend(&shares_room, before.shares, lent.shares * sizeof *shares);
    int64_t *deviations = guard_lend(&deviations_room, before.deviations, lent.deviations * sizeof *deviations);
    guard_only_read(&file_room);
    standing.function = "sneupelaar_settle";
    sneupelaar_settled settled = settle(file, hour.bytes, lines, lent.lines, charges, lent.charges, finals, lent.finals, shares,
        lent.shares, deviations, lent.deviations);
    standing.function = "hand_settle";
    sneupelaar_settled wanted = hand_settle((const uint8_t *)hour.words, hour.bytes, by_hand.lines, lent.lines, by_hand.charges,
        lent.charges, by_hand.finals, lent.finals, by_hand.shares, lent.shares, by_hand.deviations, lent.deviations);
    standing.function = "sneupelaar_settle";
    must(same_answer(&settled, &wanted), "the answer differs");
    compare_buffers(lent, settled.number);
    seen.settled[settled.number]++;
    try_bodies(body);
}
