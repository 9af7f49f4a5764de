/* explain.c: why a member's charge is what it is, by hand (document 02, A5). */
#include "settle.h"

/* The heads in their order; `decided` is one more than a head's place, and 0 for none. */
enum { GENERATION_HEAD, LOAD_HEAD, IMPORT_HEAD, EXPORT_HEAD, SHARE_HEAD };

static sneupelaar_explained refused(uint64_t number, uint64_t place)
{
    return (sneupelaar_explained){ .number = number, .place = place };
}

/* What each of the member's records brings: its deviation under the head of its kind, loads and exports taken off, and its share. */
static void sum_heads(const uint8_t *file, size_t records, uint32_t member, const figures *worked, int64_t *heads)
{
    static const struct {
        size_t head;
        int64_t direction;
    } of_kind[] = { [GENERATOR] = { GENERATION_HEAD, 1 }, [REAL_TIME_LOAD] = { LOAD_HEAD, -1 }, [PROFILE_LOAD] = { LOAD_HEAD, -1 },
        [IMPORT] = { IMPORT_HEAD, 1 }, [EXPORT] = { EXPORT_HEAD, -1 } };
    for (size_t at = 0; at < records; at++) {
        const uint8_t *record = record_at(file, at);
        if (word(record, MEMBER) != member)
            continue;
        uint32_t kind = word(record, KIND);
        int64_t price = price_of(file, word(record, AREA));
        heads[of_kind[kind].head] += price * of_kind[kind].direction * worked->deviations[at];
        heads[SHARE_HEAD] += price * worked->shares[at];
    }
}

/* Turned round where the charge is negative, the heads with its sign are those above 0, and the largest is the one: the first of equals,
   since a later one must be larger. */
static uint64_t decide(const int64_t *heads, int64_t charge)
{
    uint64_t decided = 0;
    int64_t largest = 0;
    for (size_t head = 0; head < SNEUPELAAR_HEADS && charge != 0; head++) {
        int64_t turned = charge < 0 ? -heads[head] : heads[head];
        if (turned > largest) {
            largest = turned;
            decided = head + 1;
        }
    }
    return decided;
}

sneupelaar_explained hand_explain(const uint8_t *file, size_t file_length, uint32_t member)
{
    figures worked;
    sneupelaar_answer answer = work_out(file, file_length, &worked);
    if (answer.number != 0)
        return refused(answer.number, answer.place);
    if (member >= word(file, MEMBERS))
        return refused(13, 0);
    sneupelaar_explained explained = { 0 };
    sum_heads(file, records_in(file, file_length), member, &worked, explained.heads);
    explained.decided = decide(explained.heads, worked.charges[member]);
    return explained;
}
