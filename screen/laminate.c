#include "laminate.h"

#include <stdio.h>
#include <string.h>

static bool is_digit(uint8_t byte)
{
    return byte >= '0' && byte <= '9';
}

static bool begins_number(const uint8_t *text, size_t at)
{
    return is_digit(text[at]) && (at == 0 || !is_digit(text[at - 1]));
}

static bool is_leading_zero(const uint8_t *text, size_t length, size_t at)
{
    return text[at] == '0' && begins_number(text, at) && at + 1 < length && is_digit(text[at + 1]);
}

static bool belongs(const uint8_t *text, size_t length, size_t at)
{
    if (text[at] == '\r')
        return at + 1 < length && text[at + 1] == '\n';
    if (is_digit(text[at]))
        return !is_leading_zero(text, length, at);
    return text[at] == ' ' || text[at] == '\n';
}

size_t laminate_stray(const uint8_t *text, size_t length)
{
    size_t at = 0;
    while (at < length && belongs(text, length, at))
        at++;
    return at;
}

void laminate_stray_words(const uint8_t *text, size_t length, size_t stray, char words[STRAY_WORDS])
{
    static const uint8_t byte_order_mark[] = {0xEF, 0xBB, 0xBF};
    uint8_t byte = text[stray];
    const char *name = NULL;
    if (is_leading_zero(text, length, stray))
        name = "a leading zero";
    else if (byte == '\r')
        name = "a lone carriage return";
    else if (byte == '\t')
        name = "a tab";
    else if (length - stray >= sizeof byte_order_mark && memcmp(text + stray, byte_order_mark, 3) == 0)
        name = "a byte order mark";
    if (name != NULL)
        snprintf(words, STRAY_WORDS, "%s", name);
    else if (byte > 0x20 && byte < 0x7F)
        snprintf(words, STRAY_WORDS, "'%c'", byte);
    else
        snprintf(words, STRAY_WORDS, "byte %02X (hexadecimal)", byte);
}

static uint32_t with_digit(uint32_t number, uint32_t digit)
{
    return number > (UINT32_MAX - digit) / 10 ? UINT32_MAX : number * 10 + digit;
}

void laminate_take(struct laminate *laminate, const char *path, const uint8_t *text, size_t length)
{
    uint32_t *entry = laminate->entries;
    laminate->loaded = true;
    laminate->count = 0;
    snprintf(laminate->path, sizeof laminate->path, "%s", path);
    for (size_t at = 0; at < length; at++) {
        if (begins_number(text, at)) {
            entry = &laminate->entries[laminate->count++];
            *entry = 0;
        }
        if (is_digit(text[at]))
            *entry = with_digit(*entry, (uint32_t)(text[at] - '0'));
    }
}
