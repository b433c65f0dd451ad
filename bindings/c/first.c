/* first FILE [explicit] [portable] [floats]: prints the text of a module, by these flags. */
#include <stdio.h>
#include <stdlib.h>
#include <string.h>
#include "yorwethul.h"

int main(int count, char **words) {
    FILE *file = count > 1 ? fopen(words[1], "rb") : stdin;
    if (!file) { perror(words[1]); return 2; }
    size_t room = 1 << 16, length = 0, got;
    uint8_t *json = malloc(room);
    while (json && (got = fread(json + length, 1, room - length, file)) > 0)
        if ((length += got) == room) json = realloc(json, room *= 2);
    if (!json || ferror(file)) { fputs("the file could not be read\n", stderr); return 2; }
    uint32_t flags = 0;
    for (int at = 2; at < count; at++) {
        if (!strcmp(words[at], "explicit")) flags |= YORWETHUL_EXPLICIT_TYPES;
        else if (!strcmp(words[at], "portable")) flags |= YORWETHUL_PORTABLE;
        else if (!strcmp(words[at], "floats")) flags |= YORWETHUL_DECIMAL_FLOATS;
        else { fprintf(stderr, "unknown word %s\n", words[at]); return 2; }
    }
    /* a text is nearly always shorter than its JSON, so that one call is enough */
    size_t out_length = length + 256, needed;
    uint8_t *out = malloc(out_length);
    uint32_t status = YORWETHUL_OUT_OF_MEMORY;
    while (out) {
        status = yorwethul_write(json, length, flags, out, out_length, &needed);
        if (needed <= out_length) break;
        free(out);
        out = malloc(out_length = needed);
    }
    if (!out || status == YORWETHUL_OUT_OF_MEMORY) { fputs("out of memory\n", stderr); return 2; }
    fwrite(out, 1, needed, status == YORWETHUL_DONE ? stdout : stderr);
    if (status != YORWETHUL_DONE) fprintf(stderr, " (status %u)\n", (unsigned)status);
    free(out);
    free(json);
    if (fflush(stdout) || ferror(stdout)) { fputs("the text could not be written\n", stderr); return 2; }
    return status != YORWETHUL_DONE;
}
