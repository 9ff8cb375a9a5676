/* What the archive answers for lists of runs, in the form of `trench-check written`, which prints what is due. The file has the
 * lines of `trench-check lists`: a label, and in hexadecimal digits the buffer's length, the job number and the list.
 *
 *   lists FILE       prints for each line the label, then 0, 0 and the job book, or the refusal's number and place
 *
 * List and buffer are as long as they are lent, so that a sanitizer sees every access beyond them. Exit status 1 where bytes were
 * changed that must not be, 2 where a line cannot be read.
 */
#include <stdbool.h>
#include <stdio.h>
#include <stdlib.h>
#include <string.h>

#include "trench.h"

enum { LINE = 4096, NOISE = 0xA7, CHANGED = 1, UNREAD = 2 };

/* Memory of so many bytes, and of one where there are none. */
static void *lent(size_t bytes)
{
    void *memory = malloc(bytes ? bytes : 1);
    if (!memory)
        exit(UNREAD);
    return memory;
}

/* The number of so many bytes, least first, whose digits stand here. */
static uint32_t number_of(const char *digits, int bytes)
{
    uint32_t number = 0;
    for (int i = 0; i < bytes; i++) {
        unsigned byte;
        if (sscanf(digits + 2 * i, "%2x", &byte) != 1)
            exit(UNREAD);
        number |= (uint32_t)byte << 8 * i;
    }
    return number;
}

static bool is_noise(const uint8_t *bytes, size_t count)
{
    for (size_t i = 0; i < count; i++)
        if (bytes[i] != NOISE)
            return false;
    return true;
}

/* Writes the job of one line and prints the answer. Whether only the book was written. */
static bool answer(const char *label, const char *digits)
{
    size_t room = number_of(digits, 2), count = (strlen(digits) - 12) / 8;
    uint32_t number = number_of(digits + 4, 4);
    uint8_t *out = lent(room);
    int32_t *list = lent(count * sizeof *list), *same = lent(count * sizeof *list);
    for (size_t i = 0; i < count; i++)
        list[i] = same[i] = (int32_t)number_of(digits + 12 + 8 * i, 4);
    memset(out, NOISE, room);
    size_t place = trench_job_place(number, list, count, out, room);
    bool good = is_noise(out, room);
    int32_t length = trench_job(number, list, count, out, room);
    size_t written = length > 0 ? (size_t)length : 0;
    printf("%s %d %zu", label, length < 0 ? (int)-length : 0, place);
    for (size_t i = 0; i < written; i++)
        printf("%s%02x", i ? "" : " ", out[i]);
    puts("");
    good = good && is_noise(out + written, room - written) && memcmp(list, same, count * sizeof *list) == 0;
    free(out), free(list), free(same);
    return good;
}

int main(int argc, char **argv)
{
    static char line[LINE], label[LINE], digits[LINE];
    FILE *file = argc == 2 ? fopen(argv[1], "r") : NULL;
    if (!file)
        return UNREAD;
    while (fgets(line, sizeof line, file)) {
        if (sscanf(line, "%s %s", label, digits) != 2 || strlen(digits) < 12)
            return UNREAD;
        if (!answer(label, digits)) {
            fprintf(stderr, "%s: bytes were changed that must not be\n", label);
            return CHANGED;
        }
    }
    fclose(file);
    return 0;
}
