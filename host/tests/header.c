/* Takes answers apart by inkrowan.h and, where the exports are linked, makes each call once. */

#include "inkrowan.h"

#include <assert.h>
#include <stdio.h>
#include <string.h>

static void parts(void)
{
    uint64_t refused = (UINT64_C(14) << 56) + (UINT64_C(65535) << 32) + 8185;
    assert(inkrowan_number(refused) == 14);
    assert(inkrowan_tag(refused) == 65535);
    assert(inkrowan_place(refused) == 8185);
    assert(inkrowan_count(refused) == 0);
    uint64_t good = 2048;
    assert(inkrowan_number(good) == 0);
    assert(inkrowan_tag(good) == 0);
    assert(inkrowan_place(good) == 0);
    assert(inkrowan_count(good) == 2048);
}

#ifdef INKROWAN_LINKED
static uint8_t book[] = {
    8, 0, 1, 0, 11, 0, 1, 0, 0, 0, 8, 0, 1, 0, 95, 0, 5, 0, 96, 0,
    8, 0, 1, 0, 96, 0, 10, 0, 95, 0, 8, 0, 1, 0, 197, 1, 7, 0, 0, 0,
    8, 0, 1, 0, 192, 1, 1, 0, 0, 0, 8, 0, 1, 0, 191, 1, 2, 0, 0, 0,
    8, 0, 1, 0, 196, 1, 4, 0, 0, 0,
    22, 0, 2, 0, 'D', 0, 0, 0, 11, 0, 1, 0, 197, 1, 0, 0, 95, 0, 0, 0, 96, 0, 0, 0,
    6, 0, 2, 0, '0', 0, 0, 0,
    16, 0, 3, 0, 197, 1, 192, 1, 1, 0, 191, 1, 1, 0, 196, 1, 0, 0,
};

static void calls(void)
{
    const char text[] = "8=FIX.4.4\0019=28\00135=D\00111=A\001453=1\001448=X\001447=B\00110=045\001";
    const uint8_t *message = (const uint8_t *)text;
    size_t length = sizeof text - 1;
    static uint8_t index[INKROWAN_INDEX_BYTES];
    static uint8_t output[INKROWAN_MOST_MESSAGE_BYTES];

    assert(inkrowan_check(book, sizeof book) == 0);
    uint64_t answer = inkrowan_read(book, sizeof book, message, length, index, sizeof index);
    assert(inkrowan_number(answer) == 0 && inkrowan_count(answer) == 8);
    assert(inkrowan_read_checked(book, sizeof book, message, length, index, sizeof index) == answer);
    size_t filled = inkrowan_count(answer) * INKROWAN_ROW_BYTES;
    assert(inkrowan_find(index, filled, 4, 1, 447) == 6);
    assert(inkrowan_find(index, filled, 4, 2, 447) == INKROWAN_ABSENT);

    /* The fields behind 35 and before 10 again, with the message itself for the values. */
    uint8_t triples[4 * 6];
    for (size_t row = 3; row < 7; row++)
        memcpy(triples + (row - 3) * 6, index + row * INKROWAN_ROW_BYTES, 6);
    const uint8_t *type = (const uint8_t *)"D";
    answer = inkrowan_write(book, sizeof book, 1, type, 1, triples, sizeof triples,
                            message, length, output, sizeof output);
    assert(inkrowan_number(answer) == 0 && inkrowan_count(answer) == length);
    assert(memcmp(output, message, length) == 0);
    assert(inkrowan_write_checked(book, sizeof book, 1, type, 1, triples, sizeof triples,
                                  message, length, output, sizeof output) == answer);
}
#endif

int main(void)
{
    parts();
#ifdef INKROWAN_LINKED
    calls();
#endif
    puts("good");
    return 0;
}
