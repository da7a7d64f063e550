/* The printed leaf of the scope document through the header: level, segment, print. Compiled as C99 and as C++17 by the tests. */
#include "../../include/novlizeb.h"

#include <stdio.h>
#include <string.h>

static const char expected[] = "000100060004000600044000000000000000\n"
                               "01000100010003000200000002000000040002000\n"
                               "020001000100030002001\n"
                               "05000100010001000200000002000\n"
                               "05000300010003000200000002000\n"
                               "0600010003\n"
                               "07000000040000000000000000000000000000000400000000\n";

int main(void)
{
    static const uint8_t mask[24] = {0, 0, 0, 0, 0, 0, 0, 1, 0, 1, 0, 0, 0, 1, 0, 1, 0, 0, 0, 0, 0, 0, 0, 0};
    static const novlizeb_sheet sheet = {1, 1.0, 1, 1.0, 4.0, 0.5, 4.0, 8.0, 1.0, 1, 0.5, 3.0, 0.5, 0.5, 3.0, 1.0, 0.0, 0.0};
    static uint32_t store[4096], scratch[4096];
    static uint8_t ink[64], kinds[64], text[512];
    uint64_t size = novlizeb_frame_size(6, 4, 0.0), answer;
    size_t dots = novlizeb_plane_bytes(novlizeb_value(size), novlizeb_number(size));
    size_t store_words = novlizeb_store_words(6, novlizeb_value(size), novlizeb_number(size), 64);
    size_t scratch_words = novlizeb_scratch_words(novlizeb_value(size), novlizeb_number(size), 64);
    uint32_t number = novlizeb_level_page(mask, sizeof mask, 6, 4, 0.0, 0.0, &sheet, 64, store, store_words, ink, dots);
    if (!number) number = novlizeb_segment_page(&sheet, store, store_words, ink, dots, kinds, dots, scratch, scratch_words);
    if (number) {
        printf("refused with %u: %s\n", (unsigned)number, novlizeb_refusal_text(number));
        return 1;
    }
    answer = novlizeb_write_sheet(store, store_words, ink, dots, kinds, dots, text, sizeof text);
    if (novlizeb_number(answer) || novlizeb_value(answer) != sizeof expected - 1 || memcmp(text, expected, sizeof expected - 1)) {
        printf("another sheet than the one expected\n");
        return 1;
    }
    if (novlizeb_level_page(mask, sizeof mask, 6, 4, 0.0, 0.0, &sheet, 64, store, store_words, ink, dots) != NOVLIZEB_NOT_EMPTY || novlizeb_clear(store, store_words)) {
        printf("a store that is not empty was levelled, or could not be cleared\n");
        return 1;
    }
    fwrite(text, 1, novlizeb_value(answer), stdout);
    return 0;
}
