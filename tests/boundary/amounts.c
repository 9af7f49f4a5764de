/* amounts.c: trials of writing and reading text amounts. */
#include <string.h>

#include "chance.h"
#include "guard.h"
#include "hand/hand.h"
#include "trials.h"

enum { WIDEST = 300 };

static guarded room;

static int64_t some_cents(void)
{
    static const int64_t ends[] = { 0, 99, 100, 999, 1000, 999999999999, 1000000000000, 1000000000001, INT64_MAX, INT64_MIN + 1 };
    size_t bits = 1 + below(63);
    int64_t cents = once_in(4) ? ends[below(sizeof ends / sizeof *ends)] : (int64_t)(chance() >> bits);
    if (once_in(64))
        return INT64_MIN;
    return once_in(2) ? -cents : cents;
}

static size_t some_width(void)
{
    return once_in(16) ? below(WIDEST + 1) : below(20);
}

static uint8_t *lend_field(const uint8_t *bytes, size_t width)
{
    if (room.pages == NULL)
        room = guard_room(WIDEST);
    return guard_lend(&room, bytes, width);
}

void try_writing(write_function *write)
{
    uint8_t by_hand[WIDEST];
    int64_t cents = some_cents();
    size_t width = some_width();
    random_bytes(by_hand, width);
    uint8_t *field = lend_field(by_hand, width);
    standing.function = "sneupelaar_write";
    sneupelaar_answer answer = write(cents, field, width), wanted = hand_write(cents, by_hand, width);
    must(answer.number == wanted.number && answer.place == wanted.place, "the answer differs");
    must(memcmp(room.at, by_hand, width) == 0, "the field differs");
    must(guard_kept(&room), "a byte beside the field was written");
    seen.written[answer.number]++;
}

/* An amount's text, or one of the texts that nearly are. */
static size_t some_text(uint8_t *text)
{
    static const char *const nearly[] = { "-0.00", "+0.00", "+00.00", "+01.00", "+.50", "+1.5", "+1.50 ", "+ 1.50", "1.50", "+1,50", "+",
        "+9999999999.99", "-9999999999.99", "+10000000000.00", "+12.345", "++1.00", "+1..00", "+1.+0", "+1.0", "-", " ", "+0.0", "0.00" };
    size_t width = some_width();
    if (once_in(3)) {
        const char *chosen = nearly[below(sizeof nearly / sizeof *nearly)];
        size_t blanks = once_in(2) ? 0 : below(4);
        memset(text, ' ', blanks);
        memcpy(text + blanks, chosen, strlen(chosen));
        return blanks + strlen(chosen);
    }
    if (hand_write(some_cents(), text, width).number != 0)
        memset(text, ' ', width);
    return width;
}

void try_reading(read_function *read)
{
    static const char bytes[] = " +-.0123456789/:,x";
    uint8_t text[WIDEST];
    size_t width = some_text(text);
    while (width > 0 && once_in(2)) {
        size_t at = below(width);
        text[at] = once_in(8) ? (uint8_t)chance() : (uint8_t)bytes[below(sizeof bytes - 1)];
    }
    uint8_t *field = lend_field(text, width);
    guard_only_read(&room);
    standing.function = "sneupelaar_read";
    sneupelaar_reading reading = read(field, width), wanted = hand_read(text, width);
    must(reading.number == wanted.number && reading.place == wanted.place, "the answer differs");
    must(reading.amount == wanted.amount, "the amount differs");
    seen.read[reading.number]++;
}
