/* Prints a key for each file: a hash of its normal form without BLOCKINFO blocks, so that files that hold the same have the same
   key. A real cache needs a cryptographic hash.

   cc cache_key.c $(pkg-config --cflags --libs bitstream) -o cache_key */
#include <bitstream.h>
#include <stdio.h>
#include <stdlib.h>

static uint64_t hash_of(const uint8_t *at, size_t len) {
    uint64_t hash = 14695981039346656037u;
    for (size_t i = 0; i < len; i++) hash = (hash ^ at[i]) * 1099511628211u;
    return hash;
}

/* The bytes of a file; NULL if it cannot be read. */
static uint8_t *bytes_of(const char *path, size_t *len) {
    FILE *file = fopen(path, "rb");
    uint8_t *bytes = NULL;
    *len = 0;
    if (!file) return NULL;
    if (fseek(file, 0, SEEK_END) == 0) {
        long end = ftell(file);
        rewind(file);
        bytes = end < 0 ? NULL : malloc((size_t)end + 1);
        if (bytes) *len = fread(bytes, 1, (size_t)end, file);
    }
    fclose(file);
    return bytes;
}

/* The normal form of bytes, in memory that the caller frees. */
static uint32_t normal_of(const uint8_t *bytes, size_t len, uint8_t **form, size_t *needed, struct bs_fault *fault) {
    struct bs_limits limits;
    struct bs_left_out left_out = BS_WHOLE;
    /* Most files have a shorter normal form than themselves. */
    size_t room = len + len / 4 + 64;
    bs_usual_limits(&limits);
    left_out.info = true;
    for (;;) {
        uint8_t *at = malloc(room);
        if (!at) return BS_MEMORY;
        uint32_t status = bs_normal(bytes, len, &limits, &left_out, at, room, needed, fault);
        if (status == BS_DONE) {
            *form = at;
            return status;
        }
        free(at);
        if (status != BS_ROOM) return status;
        room = *needed;
    }
}

static int print_key(const char *path) {
    size_t len, needed;
    struct bs_fault fault = {0, 0, 0};
    struct bs_bytes name = BS_NO_BYTES;
    uint8_t *form = NULL, *bytes = bytes_of(path, &len);
    if (!bytes) {
        fprintf(stderr, "%s: not read\n", path);
        return 3;
    }
    uint32_t status = normal_of(bytes, len, &form, &needed, &fault);
    free(bytes);
    if (status == BS_DONE) {
        printf("%016llx %s\n", (unsigned long long)hash_of(form, needed), path);
        free(form);
        return 0;
    }
    bs_reason_name(fault.reason, &name);
    fprintf(stderr, "%s: status %u %.*s at bit %llu\n", path, (unsigned)status, (int)name.len, (const char *)name.at,
            (unsigned long long)fault.bit);
    return 1;
}

int main(int words, char **word) {
    int status = 0;
    for (int i = 1; i < words; i++) {
        int ended = print_key(word[i]);
        if (ended > status) status = ended;
    }
    return status;
}
