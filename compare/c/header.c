/* Includes the header, links the library, and asks each kind of function once. */
#include "cofferdrift.h"

#include <stdio.h>
#include <string.h>

static int failed = 0;

static void expect(int ok, const char *what) {
    if (!ok) {
        printf("header: %s\n", what);
        failed = 1;
    }
}

int main(void) {
    /* M1 of document 01: x in NAT1 selected, goal x in NAT. */
    const uint8_t m1[] = {0x53, 0x51, 0x54, 1, 0, 1, 1, 0, 0, 2, 0x15, 0x20, 0, 0x25, 0x15, 0x20, 0, 0x24};
    const uint8_t types[] = {0};
    const uint8_t hypothesis[] = {0x15, 0x20, 0, 0x25};
    uint8_t out[32];
    size_t hidden = 9, selected = 9, visible = 9, place = 9, changed = 9, size = 9;

    expect(cofferdrift_read_formula(m1, sizeof m1, types, 1, 0, 10, &place) == 0 && place == 14, "formula read");
    expect(cofferdrift_read_formula(m1, sizeof m1, types, 0, 0, 10, &place) == 7 && place == 11, "formula refused");
    expect(cofferdrift_read(m1, sizeof m1, &hidden, &selected, &visible, &place) == 0, "read");
    expect(hidden == 0 && selected == 1 && visible == 1 && place == 11, "counts");
    expect(cofferdrift_read(m1, 7, &hidden, &selected, &visible, &place) == 1 && place == 7 && visible == 1, "short");

    memset(out, 0xA5, sizeof out);
    expect(cofferdrift_hide(m1, sizeof m1, hypothesis, 4, out, sizeof out, &changed, &size, &place) == 0, "hide");
    expect(changed == 1 && size == sizeof m1 && out[9] == 1 && memcmp(out, m1, 9) == 0, "hidden");
    expect(memcmp(out + 10, m1 + 10, sizeof m1 - 10) == 0 && out[sizeof m1] == 0xA5, "the rest");
    memset(out, 0xA5, sizeof out);
    expect(cofferdrift_hide(m1, sizeof m1, hypothesis, 4, out, 17, &changed, &size, &place) == 14, "no room");
    expect(place == 0 && out[0] == 0xA5 && out[16] == 0xA5, "nothing written");
    if (!failed) {
        printf("header: as expected\n");
    }
    return failed;
}
