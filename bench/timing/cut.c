/* The plain loop that dumps are held against: it cuts the bytes into lines and tokens, once, and keeps where each of a line's first five tokens stands. */
#include <stddef.h>
#include <stdint.h>

static int blank(uint8_t c)
{
    return c == ' ' || c == '\t' || c == '\n' || c == '\f' || c == '\r';
}

/* How many tokens there are; `lines` and `bytes` are how many lines, and how many bytes the first five tokens of each have. */
size_t cut(const uint8_t *text, size_t length, size_t *lines, size_t *bytes)
{
    size_t tokens = 0, ended = 0, kept = 0, i = 0;
    size_t start[5], end[5];

    while (i < length) {
        size_t found = 0;

        while (i < length && text[i] != '\n') {
            if (blank(text[i])) {
                i++;
                continue;
            }
            size_t from = i;
            while (i < length && !blank(text[i]))
                i++;
            if (found < 5) {
                start[found] = from;
                end[found] = i;
            }
            found++;
        }
        for (size_t k = 0; k < found && k < 5; k++)
            kept += end[k] - start[k];
        tokens += found;
        ended++;
        i++;
    }
    *lines = ended;
    *bytes = kept;
    return tokens;
}
