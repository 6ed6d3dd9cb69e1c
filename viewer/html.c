#include "html.h"

#include <stdio.h>

void put(const char *markup)
{
    fputs(markup, stdout);
}

int is_visible(int byte)
{
    return byte > ' ' && byte <= '~';
}

static void put_visible(int byte)
{
    switch (byte) {
    case '<': put("&lt;"); break;
    case '>': put("&gt;"); break;
    case '&': put("&amp;"); break;
    case '"': put("&quot;"); break;
    case '\'': put("&#39;"); break;
    default: putchar(byte);
    }
}

void put_bytes(struct span span)
{
    int boxed = 0;
    size_t at;

    for (at = 0; at < span.len; at++) {
        int visible = is_visible(span.bytes[at]);

        if (visible == boxed)
            put(boxed ? "</span>" : "<span class=\"x\">");
        boxed = !visible;
        if (visible)
            put_visible(span.bytes[at]);
        else
            printf("\\x%02x", span.bytes[at]);
    }
    if (boxed)
        put("</span>");
}

void put_event(struct span event)
{
    const char *between = "";

    while (event.len != 0) {
        put(between);
        put_bytes(take_field(&event));
        between = " ";
    }
}

/* Whether two bytes are one letter or sign of Latin (U+00A1 to U+02FF), Greek or Cyrillic (to U+052F). Accents that stand
 * on the letter before them are none, nor is U+00AD, a hyphen that is seen at a line's end only. */
static int is_letter(const unsigned char *two)
{
    unsigned letter = (two[0] & 0x1fu) << 6 | (two[1] & 0x3fu);

    if ((two[0] & 0xe0) != 0xc0 || (two[1] & 0xc0) != 0x80)
        return 0;
    return (letter > 0xa0 && letter < 0x300 && letter != 0xad) || (letter >= 0x370 && letter < 0x483) ||
           (letter > 0x489 && letter < 0x530);
}

void put_name(const char *name)
{
    const unsigned char *at = (const unsigned char *)name;

    while (*at != '\0') {
        if (*at == ' ' || is_visible(*at)) {
            put_visible(*at++);
        } else if (is_letter(at)) {
            putchar(*at++);
            putchar(*at++);
        } else {
            printf("\\x%02x", *at++);
        }
    }
}

void put_count(size_t number)
{
    if (number >= 1000) {
        put_count(number / 1000);
        printf(",%03u", (unsigned)(number % 1000));
    } else {
        printf("%u", (unsigned)number);
    }
}

void put_counted(size_t number, const char *one, const char *many)
{
    put_count(number);
    printf(" %s", number == 1 ? one : many);
}

void put_address(const struct chip *chip, size_t address)
{
    printf("%0*x", chip->digits, (unsigned)address);
}
