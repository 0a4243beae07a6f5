/* The calls that tests/c_library makes of the library in C.
   memory FILE: each allocation fails in turn; each call must return BS_MEMORY then, and nothing may leak. It is linked with
   -Wl,--wrap=malloc,--wrap=realloc,--wrap=free.
   threads FILE..: four threads take the files in different orders, and each result must be that of one thread alone.
   each FILE..: makes the calls for each file once. */
#include "bitstream.h"
#include <pthread.h>
#include <stdio.h>
#include <stdlib.h>
#include <string.h>

struct file {
    uint8_t *at;
    size_t len;
};

/* The results of the calls, as one number. */
static uint64_t mixed(uint64_t sum, uint64_t number) { return (sum ^ number) * 1099511628211u; }

static uint64_t mixed_text(uint64_t sum, const uint8_t *at, size_t len) {
    for (size_t i = 0; i < len; i++) sum = mixed(sum, at[i]);
    return sum;
}

/* Whether any call returned BS_MEMORY. */
static int lacked;

static uint32_t noted(uint32_t status) {
    if (status == BS_MEMORY) lacked = 1;
    return status;
}

static uint8_t *room_for(size_t len) {
    uint8_t *room = malloc(len + 1);
    if (!room) exit(9);
    return room;
}

#ifdef WRAPPED
void *__real_malloc(size_t);
void *__real_realloc(void *, size_t);
void __real_free(void *);
/* Volatile, because a compiler assumes that malloc and free read no variable. */
static volatile long left = -1, live;
static volatile int counted;
static int refuses(void) { return counted && left >= 0 && left-- == 0; }
void *__wrap_malloc(size_t size) {
    if (refuses()) return NULL;
    void *at = __real_malloc(size);
    if (counted && at) live += 1;
    return at;
}
void *__wrap_realloc(void *old, size_t size) {
    if (refuses()) return NULL;
    void *at = __real_realloc(old, size);
    if (counted && at && !old) live += 1;
    return at;
}
void __wrap_free(void *at) {
    if (counted && at) live -= 1;
    __real_free(at);
}
#endif

static void count_memory(int is_counted) {
#ifdef WRAPPED
    counted = is_counted;
#else
    (void)is_counted;
#endif
}

/* The events in a handle, which were begun with this status. */
static uint64_t mixed_events(struct bs_handle *handle, uint32_t status) {
    struct bs_fault fault = {0, 0, 0};
    struct bs_event event = {0};
    struct bs_magic_bytes magic = {{0}};
    struct bs_operand operands[64];
    uint64_t values[64], sum = 0;
    size_t count = 0;
    memset(operands, 0, sizeof operands);
    if (status == BS_DONE) noted(bs_magic(handle, &magic, &fault));
    sum = mixed_text(sum, magic.bytes, 4);
    while (status == BS_DONE) {
        status = noted(bs_next(handle, &event, &fault));
        sum = mixed(mixed(mixed(sum, status), event.kind), event.after);
        if (status != BS_DONE || event.kind == BS_OVER) break;
        if (event.kind == BS_RECORD && bs_values(handle, values, 64, &count, &fault) == BS_DONE) {
            for (size_t i = 0; i < count; i++) sum = mixed(sum, values[i]);
        }
        if (event.kind == BS_DEFINE && bs_operands(handle, operands, 64, &count, &fault) == BS_DONE) {
            for (size_t i = 0; i < count; i++) sum = mixed(mixed(sum, operands[i].kind), operands[i].value);
        }
    }
    bs_close(handle);
    bs_close(handle);
    return mixed(mixed(sum, fault.reason), fault.bit);
}

static uint64_t ask_events(const struct file *file, const struct bs_limits *limits) {
    struct bs_handle handle = {0};
    struct bs_fault fault;
    count_memory(1);
    uint64_t sum = mixed_events(&handle, noted(bs_open(file->at, file->len, limits, &handle, &fault)));
    count_memory(0);
    return sum;
}

/* Names, some of which occur in most files, with BLOCKINFO blocks or without. */
static struct bs_left_out some_names(int with_info) {
    static const uint32_t blocks[] = {12, 5};
    static const struct bs_record_name records[] = {{8, 1}, {9, 100}};
    struct bs_left_out left_out = {!with_info, blocks, 2, records, 2};
    return left_out;
}

/* A file compared with itself with one bit turned, at up to eight places. */
static uint64_t ask_differences(const struct file *file, const struct bs_limits *limits, uint64_t sum) {
    struct bs_left_out left_out = some_names(1);
    struct bs_open_block room[255];
    struct bs_difference difference;
    struct bs_fault fault;
    uint8_t *turned = room_for(file->len);
    memset(&difference, 0, sizeof difference);
    memset(room, 0, sizeof room);
    memcpy(turned, file->at, file->len);
    for (size_t place = 0; place < 8; place++) {
        size_t at = file->len / 8 * place;
        turned[at] ^= 1 << place;
        count_memory(1);
        uint32_t status = noted(bs_first_difference(file->at, file->len, turned, file->len, limits, &left_out, &difference, room, 255, &fault));
        count_memory(0);
        turned[at] ^= 1 << place;
        sum = mixed(mixed(mixed(sum, status), difference.depth), difference.second.bit);
        for (size_t i = 0; i < difference.depth; i++) sum = mixed(sum, room[i].items);
    }
    free(turned);
    return sum;
}

/* The room for texts is 32 times the file and 64 KiB, more than these files need. */
static uint64_t ask_texts(const struct file *file, const struct bs_limits *limits, uint64_t sum) {
    struct bs_fault fault;
    size_t len = 32 * file->len + 65536, needed = 0;
    uint8_t *room = room_for(len);
    for (int call = 0; call < 4; call++) {
        struct bs_left_out left_out = some_names(call == 1);
        count_memory(1);
        uint32_t status = call < 2    ? bs_normal(file->at, file->len, limits, &left_out, room, len, &needed, &fault)
                          : call == 2 ? bs_report(file->at, file->len, limits, room, len, &needed, &fault)
                                      : bs_show(file->at, file->len, limits, &left_out, room, len, &needed, &fault);
        count_memory(0);
        sum = mixed(mixed(sum, noted(status)), needed);
        if (status == BS_DONE) sum = mixed_text(sum, room, needed);
    }
    free(room);
    return sum;
}

/* The listing of a file, assembled in the same room, which is more than these forms need. */
static uint64_t ask_assembled(const struct file *file, const struct bs_limits *limits, uint64_t sum) {
    struct bs_left_out left_out = BS_WHOLE;
    struct bs_fault fault;
    size_t len = 32 * file->len + 65536, listed = 0, needed = 0;
    uint8_t *listing = room_for(len), *room = room_for(len);
    count_memory(1);
    uint32_t status = noted(bs_show(file->at, file->len, limits, &left_out, listing, len, &listed, &fault));
    if (status == BS_DONE) status = noted(bs_assemble(listing, listed, limits, room, len, &needed, &fault));
    count_memory(0);
    sum = mixed(mixed(sum, status), needed);
    if (status == BS_DONE) sum = mixed_text(sum, room, needed);
    free(listing);
    free(room);
    return sum;
}

/* The text that is held, in pieces. */
static uint64_t mixed_pieces(uint64_t sum, struct bs_handle *handle) {
    struct bs_fault fault;
    uint8_t room[4095];
    size_t taken = 0;
    memset(room, 0, sizeof room);
    while (bs_take(handle, room, sizeof room, &taken, &fault) == BS_DONE && taken) sum = mixed_text(sum, room, taken);
    return sum;
}

/* The tree of a file, written item by item. */
static uint64_t ask_writer(const struct file *file, const struct bs_limits *limits, uint64_t sum) {
    struct bs_handle reader = {0}, writer = {0};
    struct bs_magic_bytes magic = {{0}};
    struct bs_event event = {0};
    struct bs_fault fault;
    size_t most = 8 * file->len + 64, count = 0;
    uint64_t *values = (uint64_t *)room_for(most * sizeof *values);
    memset(values, 0, most * sizeof *values);
    count_memory(1);
    uint32_t status = noted(bs_open(file->at, file->len, limits, &reader, &fault));
    if (status == BS_DONE) status = bs_magic(&reader, &magic, &fault);
    if (status == BS_DONE) status = noted(bs_write_open(&magic, limits, &writer, &fault));
    while (status == BS_DONE) {
        status = noted(bs_next(&reader, &event, &fault));
        if (status != BS_DONE || event.kind == BS_OVER) break;
        if (event.kind == BS_ENTER) status = bs_write_enter(&writer, event.id, &fault);
        if (event.kind == BS_RECORD) status = bs_values(&reader, values, most, &count, &fault);
        if (event.kind == BS_RECORD && status == BS_DONE) status = bs_write_record(&writer, event.code, values, count, &fault);
        if (event.kind == BS_LEAVE) status = bs_write_leave(&writer, &fault);
        noted(status);
    }
    if (status == BS_DONE) status = noted(bs_write_finish(&writer, &fault));
    bs_close(&reader);
    count_memory(0);
    sum = mixed_pieces(mixed(sum, status), &writer);
    count_memory(1);
    bs_close(&writer);
    count_memory(0);
    free(values);
    return sum;
}

/* A file in pieces of one size. A piece that was not taken is fed again, so it does not count as lacking memory. */
static uint32_t feed(struct bs_handle *handle, const struct file *file, size_t size) {
    struct bs_fault fault;
    uint32_t status = BS_DONE;
    for (size_t at = 0; at < file->len && status == BS_DONE; at += size) {
        size_t rest = file->len - at;
        status = bs_feed(handle, file->at + at, rest < size ? rest : size, &fault);
        if (status == BS_MEMORY) status = bs_feed(handle, file->at + at, rest < size ? rest : size, &fault);
    }
    return noted(status);
}

static uint64_t ask_fed(const struct file *file, const struct bs_limits *limits, uint64_t sum) {
    struct bs_left_out left_out = some_names(1);
    struct bs_handle handle = {0};
    struct bs_fault fault;
    count_memory(1);
    uint32_t status = feed(&handle, file, 4095);
    if (status == BS_DONE) status = noted(bs_fed_check(&handle, limits, &fault));
    if (status == BS_DONE) status = noted(bs_fed_normal(&handle, limits, &left_out, &fault));
    count_memory(0);
    sum = mixed_pieces(mixed(sum, status), &handle);
    count_memory(1);
    bs_close(&handle);
    count_memory(0);
    return sum;
}

/* A file beside itself with one bit turned, both in pieces; and the report of the second. */
static uint64_t ask_fed_pair(const struct file *file, const struct bs_limits *limits, uint64_t sum) {
    struct bs_left_out left_out = some_names(1);
    struct bs_open_block room[255];
    struct bs_difference difference;
    struct bs_handle handle = {0}, other = {0};
    struct bs_fault fault;
    struct file turned = {room_for(file->len), file->len};
    memset(&difference, 0, sizeof difference);
    memset(room, 0, sizeof room);
    memcpy(turned.at, file->at, file->len);
    turned.at[file->len / 2] ^= 1;
    count_memory(1);
    uint32_t status = feed(&handle, file, 4095), compared = BS_DONE;
    if (status == BS_DONE) status = feed(&other, &turned, 4095);
    if (status == BS_DONE) compared = noted(bs_fed_same(&handle, &other, limits, &left_out, &fault));
    if (status == BS_DONE) status = noted(bs_fed_first_difference(&handle, &other, limits, &left_out, &difference, room, 255, &fault));
    sum = mixed(mixed(mixed(sum, compared), status), difference.depth);
    sum = mixed(sum, noted(bs_fed_report(&handle, limits, &fault)));
    count_memory(0);
    for (size_t i = 0; i < difference.depth; i++) sum = mixed(sum, room[i].items);
    sum = mixed_pieces(sum, &handle);
    count_memory(1);
    bs_close(&handle);
    bs_close(&other);
    count_memory(0);
    free(turned.at);
    return sum;
}

/* The events of a file, whole and in pieces: the same, unless memory lacks. */
static uint64_t ask_fed_events(const struct file *file, const struct bs_limits *limits, uint64_t sum) {
    static const size_t sizes[] = {1, 2, 3, 7, 4095};
    uint64_t whole = ask_events(file, limits);
    for (size_t i = 0; i < sizeof sizes / sizeof *sizes; i++) {
        struct bs_handle handle = {0};
        struct bs_fault fault;
        count_memory(1);
        uint32_t status = feed(&handle, file, sizes[i]);
        if (status == BS_DONE) status = noted(bs_fed_events(&handle, limits, &fault));
        uint64_t found = mixed_events(&handle, status);
        count_memory(0);
        if (found != whole && !lacked) {
            printf("other events of pieces of %zu\n", sizes[i]);
            exit(1);
        }
    }
    return mixed(sum, whole);
}

static uint64_t ask_held(const struct file *file, const struct bs_limits *limits, uint64_t sum) {
    struct bs_handle handle = {0};
    struct bs_left_out left_out = some_names(0);
    struct bs_fault fault;
    size_t needed = 0;
    uint8_t none[1];
    for (int call = 0; call < 3; call++) {
        count_memory(1);
        uint32_t status = call == 0   ? bs_hold_normal(file->at, file->len, limits, &left_out, &handle, &fault)
                          : call == 1 ? bs_hold_report(file->at, file->len, limits, &handle, &fault)
                                      : bs_hold_show(file->at, file->len, limits, &left_out, &handle, &fault);
        noted(status);
        if (status == BS_DONE) bs_text(&handle, none, 0, &needed, &fault);
        count_memory(0);
        sum = mixed_pieces(mixed(mixed(sum, status), needed), &handle);
    }
    count_memory(1);
    bs_close(&handle);
    count_memory(0);
    return sum;
}

static uint64_t ask_rows(const struct file *file, const struct bs_limits *limits, uint64_t sum) {
    static const size_t most = 4096;
    struct bs_tally tally;
    struct bs_fault fault;
    struct bs_block_row *blocks = (struct bs_block_row *)room_for(most * sizeof *blocks);
    struct bs_code_row *codes = (struct bs_code_row *)room_for(most * sizeof *codes);
    count_memory(1);
    uint32_t status = noted(bs_analyse(file->at, file->len, limits, &tally, blocks, most, codes, most, &fault));
    count_memory(0);
    sum = mixed(mixed(mixed(sum, status), tally.bits), tally.codes);
    for (size_t i = 0; status == BS_DONE && i < tally.codes; i++) sum = mixed(sum, codes[i].bits);
    free(blocks);
    free(codes);
    return sum;
}

static uint64_t ask(const struct file *file) {
    struct bs_limits limits;
    struct bs_left_out left_out = BS_WHOLE;
    struct bs_fault fault;
    bs_usual_limits(&limits);
    count_memory(1);
    uint64_t sum = mixed(14695981039346656037u, noted(bs_check(file->at, file->len, &limits, &fault)));
    sum = mixed(sum, noted(bs_same(file->at, file->len, file->at, file->len, &limits, &left_out, &fault)));
    count_memory(0);
    sum = ask_assembled(file, &limits, ask_differences(file, &limits, sum));
    sum = ask_fed_pair(file, &limits, ask_fed(file, &limits, ask_writer(file, &limits, sum)));
    return ask_held(file, &limits, ask_rows(file, &limits, ask_texts(file, &limits, ask_fed_events(file, &limits, sum))));
}

static struct file file_of(const char *path) {
    struct file file = {NULL, 0};
    FILE *stream = fopen(path, "rb");
    if (!stream || fseek(stream, 0, SEEK_END)) exit(8);
    file.len = (size_t)ftell(stream);
    rewind(stream);
    file.at = room_for(file.len);
    if (fread(file.at, 1, file.len, stream) != file.len) exit(8);
    fclose(stream);
    return file;
}

static struct file *files;
static uint64_t *wanted;
static size_t count;

static void *work(void *from) {
    for (size_t k = 0; k < count; k++) {
        size_t i = (k + (size_t)from * 7919) % count;
        if (ask(&files[i]) != wanted[i]) {
            printf("differs: file %zu\n", i);
            exit(1);
        }
    }
    return NULL;
}

static int in_threads(void) {
    pthread_t threads[4];
    for (size_t i = 0; i < 4; i++) {
        if (pthread_create(&threads[i], NULL, work, (void *)i)) return 7;
    }
    for (size_t i = 0; i < 4; i++) pthread_join(threads[i], NULL);
    return 0;
}

#ifdef WRAPPED
static int with_refusals(const struct file *file) {
    for (long place = 0;; place++) {
        left = place;
        live = 0;
        lacked = 0;
        uint64_t sum = ask(file);
        if (live) {
            printf("allocation %ld failed: %ld blocks leak\n", place, live);
            return 1;
        }
        if (left >= 0) {
            if (lacked || sum != wanted[0]) return 6;
            printf("%ld requests\n", place);
            return 0;
        }
        /* A failed realloc that only shrinks a block may leave it as it is. */
        if (!lacked && sum != wanted[0]) {
            printf("allocation %ld failed: another result\n", place);
            return 1;
        }
    }
}
#endif

int main(int words, char **word) {
    if (words < 3) return 2;
    count = (size_t)words - 2;
    files = (struct file *)room_for(count * sizeof *files);
    wanted = (uint64_t *)room_for(count * sizeof *wanted);
    for (size_t i = 0; i < count; i++) {
        files[i] = file_of(word[i + 2]);
        wanted[i] = ask(&files[i]);
    }
    int status = 0;
    if (!strcmp(word[1], "threads")) status = in_threads();
#ifdef WRAPPED
    if (!strcmp(word[1], "memory")) status = with_refusals(&files[0]);
#endif
    for (size_t i = 0; i < count; i++) free(files[i].at);
    free(files);
    free(wanted);
    return status;
}
