#include "json.h"

#include <inttypes.h>
#include <string.h>

FILE *json_out;
static int is_first = 1; /* in the object or list that is open */

static FILE *out(void)
{
    return json_out ? json_out : stdout;
}

/* How many bytes the UTF-8 character at the text has, 0 if there is none. */
static size_t character(const uint8_t *text)
{
    size_t at, n = text[0] < 0x80 ? 1 : text[0] >= 0xc2 && text[0] < 0xe0 ? 2 : (text[0] & 0xf0) == 0xe0 ? 3
        : text[0] >= 0xf0 && text[0] < 0xf5                               ? 4
                                                                          : 0;
    for (at = 1; at < n; at++)
        if ((text[at] & 0xc0) != 0x80)
            return 0;
    if ((text[0] == 0xe0 && text[1] < 0xa0) || (text[0] == 0xed && text[1] > 0x9f) || (text[0] == 0xf0 && text[1] < 0x90) ||
        (text[0] == 0xf4 && text[1] > 0x8f))
        return 0;
    return n;
}

static void put_string(const char *string)
{
    const uint8_t *text = (const uint8_t *)string;
    fputc('"', out());
    while (*text) {
        size_t n = character(text);
        if (n == 0)
            fprintf(out(), "\\udc%02x", *text);
        else if (*text < 0x20 || *text == 0x7f)
            fprintf(out(), "\\u%04x", *text);
        else
            fprintf(out(), "%s%.*s", *text == '"' || *text == '\\' ? "\\" : "", (int)n, (const char *)text);
        text += n == 0 ? 1 : n;
    }
    fputc('"', out());
}

static void put_name(const char *name)
{
    if (!is_first)
        fputs(", ", out());
    is_first = 0;
    if (name) {
        put_string(name);
        fputs(": ", out());
    }
}

void json_open(const char *name, char bracket)
{
    put_name(name);
    fputc(bracket, out());
    is_first = 1;
}

void json_close(char bracket)
{
    fputc(bracket, out());
    is_first = 0;
}

void json_text(const char *name, const char *text)
{
    put_name(name);
    put_string(text);
}

void json_digits(const char *name, const uint8_t *bytes, size_t n)
{
    put_name(name);
    fputc('"', out());
    while (n-- > 0)
        fprintf(out(), "%02x", *bytes++);
    fputc('"', out());
}

void json_number(const char *name, uint64_t number)
{
    put_name(name);
    fprintf(out(), "%" PRIu64, number);
}

void json_truth(const char *name, int truth)
{
    put_name(name);
    fputs(truth ? "true" : "false", out());
}

void json_null(const char *name)
{
    put_name(name);
    fputs("null", out());
}

void json_end(void)
{
    fputc('\n', out());
    is_first = 1;
}
