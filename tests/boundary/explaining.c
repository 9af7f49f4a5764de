/* explaining.c: trials of explaining a member's charge. */
#include <string.h>

#include "chance.h"
#include "guard.h"
#include "hours.h"
#include "trials.h"

static guarded file_room;
static hour_file hour;

/* A member of the hour, mostly; the first number that is none, or one whose lowest byte may be a member's; or anything. */
static uint32_t choose_member(void)
{
    uint32_t member = (uint32_t)below(hour.members);
    if (once_in(8))
        return (uint32_t)hour.members;
    if (once_in(8))
        return once_in(2) ? member + (256u << 8 * below(3)) : (uint32_t)chance();
    return member;
}

void try_explaining(explain_function *explain)
{
    if (file_room.pages == NULL)
        file_room = guard_room(sizeof hour.words);
    make_hour(&hour);
    if (once_in(2))
        damage_hour(&hour);
    uint32_t member = choose_member();
    const uint8_t *file = guard_lend(&file_room, hour.words, hour.bytes);
    guard_only_read(&file_room);
    standing.function = "sneupelaar_explain";
    sneupelaar_explained explained = explain(file, hour.bytes, member);
    sneupelaar_explained wanted = hand_explain((const uint8_t *)hour.words, hour.bytes, member);
    must(explained.number == wanted.number && explained.place == wanted.place, "the answer differs");
    must(memcmp(explained.heads, wanted.heads, sizeof explained.heads) == 0, "a head differs");
    must(explained.decided == wanted.decided, "the head that decided differs");
    must(guard_kept(&file_room), "a byte beside the file was written");
    seen.explained[explained.number]++;
}
