/* Calls the library on the file that the second word names, as the first word says, with a buffer of as many bytes as the
 * third says, and writes what it wrote and how that ended. */
#include <inttypes.h>
#include <sqljson.h>
#include <stdio.h>
#include <stdlib.h>
#include <string.h>

static uint8_t *read_whole(const char *name, size_t *length)
{
    FILE *file = fopen(name, "rb");
    uint8_t *bytes = malloc(1 << 21);
    if (!file || !bytes)
        exit(99);
    *length = fread(bytes, 1, 1 << 21, file);
    fclose(file);
    return bytes;
}

int main(int count, char **words)
{
    if (count != 4 || sqljson_interface() != SQLJSON_INTERFACE)
        return 99;
    size_t length, room = strtoul(words[3], NULL, 10);
    uint8_t *file = read_whole(words[2], &length);
    uint8_t *out = malloc(room * sizeof(uint32_t) + 1);
    struct sqljson_ended ended = {0, 0, 0};
    if (!strcmp(words[1], "message"))
        fwrite(out, 1, sqljson_message(file, length, out, room), stdout);
    else if (!strcmp(words[1], "check"))
        sqljson_check(file, length, &ended);
    else if (!strcmp(words[1], "show")) {
        sqljson_show(file, length, out, room, &ended);
        fwrite(out, 1, ended.count, stdout);
    } else {
        uint32_t *widths = malloc(room * sizeof(uint32_t) + 1);
        sqljson_widths(file, length, widths, room, &ended);
        for (uint64_t k = 0; k < ended.count; k++)
            printf("%" PRIu32 "\n", widths[k]);
        free(widths);
    }
    fprintf(stderr, "%" PRIu32 " %" PRIu32 " %" PRIu64 "\n", ended.status, ended.statement, ended.count);
    free(file);
    free(out);
    return 0;
}
