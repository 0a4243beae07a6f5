/* Makes one call of the C library for a text of standard input, for tests/costs: c_costs CALL ROOM, where CALL is normal, report, show
   or kept, which is normal without the records of code 1 in blocks with id 8, and ROOM a number of bytes, or `fits` for as many as the
   text has; or CALL is held, which holds the normal form in a handle. Prints the status and the number of bytes needed.
   c_costs events SIZE reads the events of standard input in pieces of SIZE bytes, at most 4096. Prints the status and the number of
   events. */
#include "bitstream.h"
#include <stdio.h>
#include <stdlib.h>
#include <string.h>

static uint8_t *input;
static size_t input_len;

static void read_input(void) {
    size_t size = 0;
    do {
        size = 2 * size + 4096;
        input = realloc(input, size);
        if (!input) exit(9);
        input_len += fread(input + input_len, 1, size - input_len, stdin);
    } while (input_len == size);
}

static uint32_t hold(const struct bs_limits *limits, const struct bs_left_out *whole, size_t *needed) {
    struct bs_handle handle = {0};
    struct bs_fault fault;
    uint32_t status = bs_hold_normal(input, input_len, limits, whole, &handle, &fault);
    bs_text(&handle, NULL, 0, needed, &fault);
    bs_close(&handle);
    return status;
}

static uint32_t ask(const char *call, uint8_t *room, size_t room_len, size_t *needed) {
    struct bs_limits limits;
    struct bs_left_out whole = BS_WHOLE;
    struct bs_record_name name = {8, 1};
    struct bs_left_out kept = {.records = &name, .records_len = 1};
    struct bs_fault fault;
    bs_usual_limits(&limits);
    if (!strcmp(call, "kept")) return bs_normal(input, input_len, &limits, &kept, room, room_len, needed, &fault);
    if (!strcmp(call, "normal")) return bs_normal(input, input_len, &limits, &whole, room, room_len, needed, &fault);
    if (!strcmp(call, "held")) return hold(&limits, &whole, needed);
    if (!strcmp(call, "report")) return bs_report(input, input_len, &limits, room, room_len, needed, &fault);
    return bs_show(input, input_len, &limits, &whole, room, room_len, needed, &fault);
}

static uint32_t feed(struct bs_handle *handle, size_t size) {
    uint8_t piece[4096];
    struct bs_fault fault;
    uint32_t status = BS_DONE;
    for (size_t len; status == BS_DONE && (len = fread(piece, 1, size, stdin)) > 0;) status = bs_feed(handle, piece, len, &fault);
    return status;
}

static int read_events(size_t size) {
    struct bs_handle handle = {0};
    struct bs_limits limits;
    struct bs_fault fault;
    struct bs_event event = {0};
    size_t events = 0;
    bs_usual_limits(&limits);
    uint32_t status = feed(&handle, size);
    if (status == BS_DONE) status = bs_fed_events(&handle, &limits, &fault);
    while (status == BS_DONE) {
        status = bs_next(&handle, &event, &fault);
        if (status != BS_DONE || event.kind == BS_OVER) break;
        events++;
    }
    bs_close(&handle);
    printf("%u %zu\n", status, events);
    return 0;
}

int main(int count, char **words) {
    if (count != 3) return 9;
    size_t needed = 0, room_len = strtoull(words[2], NULL, 10);
    if (!strcmp(words[1], "events")) return read_events(room_len < 4096 ? room_len : 4096);
    read_input();
    if (!strcmp(words[2], "fits")) {
        ask(words[1], NULL, 0, &room_len);
    }
    uint8_t *room = calloc(room_len + 1, 1);
    if (!room) return 9;
    uint32_t status = ask(words[1], room, room_len, &needed);
    printf("%u %zu\n", status, needed);
    return 0;
}
