// Makes each call of the library with null pointers of length 0, as an empty std::vector has them, and with all zeros for what is
// left out: each returns the same as with a pointer that is not null. And reads events of pieces of several sizes.
#include "bitstream.h"
#include <algorithm>
#include <cstdio>
#include <vector>

static const uint8_t stream[] = {'D', 'I', 'A', 'G', 0x21, 0x0c, 0, 0, 1, 0, 0, 0, 0x0b, 0x02, 0x1e, 0};
static const uint8_t *const at = stream;
static const size_t len = sizeof stream;
static int failures = 0;

static void is(const char *call, uint32_t found, uint32_t wanted) {
    if (found != wanted) {
        std::printf("%s: %u, and not %u\n", call, unsigned(found), unsigned(wanted));
        failures++;
    }
}

// The events of the stream in pieces: a block, a record and the end of the block.
static void in_pieces(size_t size, const bs_limits &limits) {
    bs_handle handle = {};
    bs_fault fault;
    bs_event event;
    uint64_t value = 0;
    size_t count = 0;
    is("bs_feed", bs_feed(&handle, nullptr, 0, &fault), BS_DONE);
    is("bs_fed_events", bs_fed_events(&handle, &limits, &fault), BS_REFUSED);
    for (size_t from = 0; from < len; from += size) {
        is("bs_feed", bs_feed(&handle, at + from, std::min(size, len - from), &fault), BS_DONE);
    }
    is("bs_fed_events", bs_fed_events(&handle, &limits, &fault), BS_DONE);
    for (const uint32_t kind : std::vector<uint32_t>{BS_ENTER, BS_RECORD, BS_LEAVE, BS_OVER}) {
        is("bs_next", bs_next(&handle, &event, &fault), BS_DONE);
        is("kind", event.kind, kind);
        if (kind == BS_RECORD) is("bs_values", bs_values(&handle, &value, 1, &count, &fault), BS_DONE);
    }
    is("value", uint32_t(value), 28);
    bs_close(&handle);
}

int main() {
    const std::vector<uint8_t> none;
    std::vector<uint8_t> room;
    const bs_left_out whole = {};
    bs_limits limits;
    bs_fault fault;
    bs_handle handle = {};
    bs_event event;
    bs_bytes name = BS_NO_BYTES;
    bs_tally tally;
    bs_difference difference;
    size_t needed = 0;
    bs_usual_limits(&limits);
    bs_reason_name(1, &name);
    is("bs_reason_name", uint32_t(name.len), 9);
    is("bs_check", bs_check(none.data(), 0, &limits, &fault), BS_REFUSED);
    is("bs_normal", bs_normal(at, len, &limits, &whole, room.data(), 0, &needed, &fault), BS_ROOM);
    is("bs_normal", bs_normal(none.data(), 0, &limits, &whole, room.data(), 0, &needed, &fault), BS_REFUSED);
    is("bs_report", bs_report(at, len, &limits, room.data(), 0, &needed, &fault), BS_ROOM);
    is("bs_show", bs_show(at, len, &limits, &whole, room.data(), 0, &needed, &fault), BS_ROOM);
    is("bs_assemble", bs_assemble(none.data(), 0, &limits, room.data(), 0, &needed, &fault), BS_REFUSED);
    is("bs_same", bs_same(at, len, none.data(), 0, &limits, &whole, &fault), BS_REFUSED);
    is("bs_same", bs_same(none.data(), 0, at, len, &limits, &whole, &fault), BS_REFUSED);
    is("bs_same", bs_same(at, len, at, len, &limits, &whole, &fault), BS_DONE);
    is("bs_first_difference", bs_first_difference(at, len, at, 4, &limits, &whole, &difference, nullptr, 0, &fault), BS_DIFFERENT);
    is("bs_analyse", bs_analyse(at, len, &limits, &tally, nullptr, 0, nullptr, 0, &fault), BS_ROOM);
    is("bs_hold_normal", bs_hold_normal(at, len, &limits, &whole, &handle, &fault), BS_DONE);
    is("bs_hold_report", bs_hold_report(none.data(), 0, &limits, &handle, &fault), BS_REFUSED);
    is("bs_hold_show", bs_hold_show(at, len, &limits, &whole, &handle, &fault), BS_DONE);
    is("bs_text", bs_text(&handle, nullptr, 0, &needed, &fault), BS_ROOM);
    is("bs_take", bs_take(&handle, nullptr, 0, &needed, &fault), BS_DONE);
    is("bs_open", bs_open(none.data(), 0, &limits, &handle, &fault), BS_REFUSED);
    is("bs_open", bs_open(at, len, &limits, &handle, &fault), BS_DONE);
    is("bs_next", bs_next(&handle, &event, &fault), BS_DONE);
    is("bs_values", bs_values(&handle, nullptr, 0, &needed, &fault), BS_DONE);
    is("bs_operands", bs_operands(&handle, nullptr, 0, &needed, &fault), BS_DONE);
    bs_close(&handle);
    is("bs_fed_check", bs_fed_check(&handle, &limits, &fault), BS_REFUSED);
    is("bs_fed_events", bs_fed_events(&handle, &limits, &fault), BS_REFUSED);
    is("bs_feed", bs_feed(&handle, none.data(), 0, &fault), BS_DONE);
    is("bs_fed_check", bs_fed_check(&handle, &limits, &fault), BS_REFUSED);
    is("bs_feed", bs_feed(&handle, at, len, &fault), BS_DONE);
    is("bs_fed_analyse", bs_fed_analyse(&handle, &limits, &tally, nullptr, 0, nullptr, 0, &fault), BS_ROOM);
    bs_handle other = {};
    is("bs_fed_same", bs_fed_same(&handle, &other, &limits, &whole, &fault), BS_REFUSED);
    is("bs_feed", bs_feed(&other, at, 4, &fault), BS_DONE);
    is("bs_fed_same", bs_fed_same(&handle, &other, &limits, &whole, &fault), BS_DIFFERENT);
    is("bs_fed_first_difference", bs_fed_first_difference(&handle, &other, &limits, &whole, &difference, nullptr, 0, &fault), BS_DIFFERENT);
    is("bs_feed", bs_feed(&other, at + 4, len - 4, &fault), BS_DONE);
    is("bs_fed_same", bs_fed_same(&handle, &other, &limits, &whole, &fault), BS_DONE);
    is("bs_fed_report", bs_fed_report(&other, &limits, &fault), BS_DONE);
    is("bs_fed_same", bs_fed_same(&handle, &other, &limits, &whole, &fault), BS_CLOSED);
    bs_close(&other);
    is("bs_fed_show", bs_fed_show(&handle, &limits, &whole, &fault), BS_DONE);
    is("bs_fed_normal", bs_fed_normal(&handle, &limits, &whole, &fault), BS_CLOSED);
    bs_close(&handle);
    is("bs_feed", bs_feed(&handle, at, len, &fault), BS_DONE);
    is("bs_fed_normal", bs_fed_normal(&handle, &limits, &whole, &fault), BS_DONE);
    is("bs_fed_events", bs_fed_events(&handle, &limits, &fault), BS_CLOSED);
    bs_close(&handle);
    for (const size_t size : std::vector<size_t>{1, 2, 3, 7, 4095}) in_pieces(size, limits);
    const bs_magic_bytes magic = {{'D', 'I', 'A', 'G'}};
    is("bs_write_open", bs_write_open(&magic, &limits, &handle, &fault), BS_DONE);
    is("bs_write_record", bs_write_record(&handle, 1, nullptr, 0, &fault), BS_UNFIT);
    is("bs_write_enter", bs_write_enter(&handle, 8, &fault), BS_DONE);
    is("bs_write_record", bs_write_record(&handle, 1, nullptr, 0, &fault), BS_DONE);
    is("bs_write_leave", bs_write_leave(&handle, &fault), BS_DONE);
    is("bs_write_finish", bs_write_finish(&handle, &fault), BS_DONE);
    bs_close(&handle);
    return failures != 0;
}
