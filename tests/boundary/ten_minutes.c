/* ten_minutes.c: trials of ten-minute settling. */
#include <string.h>

#include "chance.h"
#include "guard.h"
#include "hours.h"
#include "trials.h"

enum { ROOM_CHARGES = 40 };

static guarded file_room, charges_room;
static hour_file hour;

/* The hand's charges; what the archive is lent holds the same bytes before. */
static int64_t before[ROOM_CHARGES], by_hand[ROOM_CHARGES];

/* Just enough, more, one too few, or anything. */
static size_t choose_length(void)
{
    size_t members = hour.members;
    if (once_in(6))
        return members - 1;
    if (once_in(16))
        return once_in(4) ? 0 : below(ROOM_CHARGES + 1);
    return once_in(2) ? members : (size_t)between((int64_t)members, ROOM_CHARGES);
}

/* A ten-minute hour, mostly; else an hour file, which is of the other form. */
static void choose_hour(void)
{
    if (once_in(16))
        make_hour(&hour);
    else
        make_ten_minute_hour(&hour);
    if (once_in(2))
        damage_hour(&hour);
}

void try_ten_minutes(settle_ten_minutes_function *settle)
{
    if (file_room.pages == NULL) {
        file_room = guard_room(sizeof hour.words);
        charges_room = guard_room(sizeof before);
    }
    choose_hour();
    size_t length = choose_length();
    random_bytes(before, sizeof before);
    memcpy(by_hand, before, sizeof before);
    const uint8_t *file = guard_lend(&file_room, hour.words, hour.bytes);
    int64_t *charges = guard_lend(&charges_room, before, length * sizeof *charges);
    guard_only_read(&file_room);
    standing.function = "sneupelaar_settle_ten_minutes";
    sneupelaar_answer answer = settle(file, hour.bytes, charges, length);
    standing.function = "hand_settle_ten_minutes";
    sneupelaar_answer wanted = hand_settle_ten_minutes((const uint8_t *)hour.words, hour.bytes, by_hand, length);
    standing.function = "sneupelaar_settle_ten_minutes";
    must(answer.number == wanted.number && answer.place == wanted.place, "the answer differs");
    must(memcmp(charges_room.at, by_hand, charges_room.length) == 0, "a charge differs");
    must(guard_kept(&file_room) && guard_kept(&charges_room), "a byte beside a buffer was written");
    seen.ten_minutes[answer.number]++;
}
