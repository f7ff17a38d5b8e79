/* Plays a script on a text, and prints what the program `displaymap` prints: play TEXT SCRIPT. The script is read in its
 * second form. The numbers of versions that `peek` prints differ, since a session publishes one alone. */
#include "displaymap.h"
#include <stdio.h>
#include <stdlib.h>
#include <string.h>

#define MOST ((size_t)1 << 25)

static uint8_t *read_whole(const char *name, size_t *length) {
    FILE *file = fopen(name, "rb");
    uint8_t *bytes = malloc(MOST);
    if (!file || !bytes) {
        fprintf(stderr, "play: can't read %s\n", name);
        exit(3);
    }
    *length = fread(bytes, 1, MOST, file);
    fclose(file);
    return bytes;
}

static bool is_blank(const uint8_t *line, size_t length) {
    for (size_t i = 0; i < length; i++)
        if (line[i] != ' ' && line[i] != '\t' && line[i] != '\r') return false;
    return true;
}

static bool is_header(const uint8_t *line, size_t length) {
    static const char header[] = "{\"script\":2}";
    return length == sizeof header - 1 && !memcmp(line, header, length);
}

static void print_answer(displaymap *d) {
    uint8_t part[4096];
    size_t length = displaymap_answer(d, 0, NULL, 0);
    for (size_t at = 0; at < length; at += sizeof part) {
        displaymap_answer(d, at, part, sizeof part);
        fwrite(part, 1, length - at < sizeof part ? length - at : sizeof part, stdout);
    }
}

int main(int count, char **words) {
    size_t length, size, end;
    displaymap d = {0};
    bool is_first = true;
    if (count != 3) {
        fprintf(stderr, "usage: play TEXT SCRIPT\n");
        return 2;
    }
    uint8_t *text = read_whole(words[1], &length), *script = read_whole(words[2], &size);
    uint32_t status = displaymap_open(&d, text, length);
    for (size_t at = 0; at < size && !status; at = end + 1) {
        for (end = at; end < size && script[end] != '\n'; end++) {}
        const uint8_t *line = script + at;
        if (is_blank(line, end - at)) continue;
        if (!is_first || !is_header(line, end - at)) {
            uint32_t refusal = displaymap_line(&d, line, end - at);
            if (refusal > 8) status = refusal;
            else if (refusal) printf("! %u\n", refusal);
            else print_answer(&d);
        }
        is_first = false;
    }
    displaymap_close(&d);
    free(text);
    free(script);
    if (status) fprintf(stderr, "play: status %u\n", status);
    return status ? 1 : 0;
}
