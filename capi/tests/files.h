/* The session, the object and the certificate that a test's words name: SESSION OBJECT CERTIFICATE
 * TSI TOI. */
#ifndef FILES_H
#define FILES_H
#include <stdint.h>
#include <stdio.h>
#include <stdlib.h>

struct bytes {
    uint8_t *at;
    size_t size;
};

struct files {
    struct bytes session, object, certificate;
    uint64_t tsi, toi;
};

/* Room for a number of bytes, whose pointer is never NULL. */
static uint8_t *room(size_t size) {
    uint8_t *at = malloc(size + 1);
    if (!at) exit(2);
    return at;
}

static struct bytes read_file(const char *name) {
    FILE *file = fopen(name, "rb");
    if (!file || fseek(file, 0, SEEK_END)) exit(2);
    struct bytes bytes = {0, (size_t)ftell(file)};
    rewind(file);
    bytes.at = room(bytes.size);
    if (fread(bytes.at, 1, bytes.size, file) != bytes.size) exit(2);
    fclose(file);
    return bytes;
}

static struct files read_files(int count, char **words) {
    if (count != 6) exit(2);
    struct files files = {read_file(words[1]), read_file(words[2]), read_file(words[3]),
                          strtoull(words[4], 0, 10), strtoull(words[5], 0, 10)};
    return files;
}

static void free_files(struct files *files) {
    free(files->session.at);
    free(files->object.at);
    free(files->certificate.at);
}
#endif
