/* Calls on streams in the LLVM bitstream container: check, normal form, comparison, analysis, listing, assembly and events.

   Each call is a function of Rattle whose contract is proved: docs/PROMISES.md lists them (docs/ of the repository, and below
   PREFIX/share/doc/bitstool where this header is PREFIX/include/bitstream.h). Before it, a few lines of C replace null pointers
   that have the length 0, and draw random keys for the hashes of an analysis. The caller's obligations are not checked. If one is
   not kept, the behaviour of a call is undefined:

   - A pointer points to an aligned object of its type, and is not null. A pointer with a length points to an array of that length,
     and may be null if the length is 0. Lengths are below 2^63 bytes. Objects that are not const are initialised. No argument that
     is not const overlaps another argument.
   - A bool is 0 or 1.
   - malloc, realloc and free come from one allocator, with C's usual alignment. No call is made from a signal handler, or from
     the forked child of a process with threads.

   Calls in several threads do not disturb each other. A handle is used by one call at a time, in any thread.
   No call keeps a pointer that it is passed, except bs_open.

   Costs of a call. Reading an input takes time in proportion to its bytes and its values. An array of values that take no bits can
   have as many values as the limit permits in a few bytes. The comment of each call gives how often it reads, and the memory that
   it takes beside the caller's: n for the bytes of an input; D for the definitions in force, at most 10 bytes for each byte of
   input that defines, and 16 for each operand of the longest; V for the values of one record, at most 3 bytes each, and 8 more
   from 65,535 on; N for the names of what is left out, 80 bytes each; and a few kilobytes, at most 50 for each open
   block that makes definitions. A call frees its memory when it ends, except what a handle holds.

   The library needs an x86-64 processor of level v2, with SSE4.2 and POPCNT; on an older one a call can end the program by SIGILL.
   It calls malloc, realloc, free, getrandom and the memory functions of C, and nothing else: it opens no file, prints nothing, and
   sets no signal handler. */
#ifndef BITSTREAM_H
#define BITSTREAM_H

#include <stdbool.h>
#include <stddef.h>
#include <stdint.h>

#ifdef __cplusplus
extern "C" {
#endif

/* How a call ended. */
enum {
    BS_DONE = 0,
    /* Two inputs differ. */
    BS_DIFFERENT = 1,
    /* An input breaks a rule, or a text is no listing. The fault has the reason and the bit, or the line. */
    BS_REFUSED = 2,
    /* An allocation failed. */
    BS_MEMORY = 3,
    /* The normal form has more bytes than the limit. */
    BS_TOO_LONG = 4,
    /* A limit is past its cap. */
    BS_LIMITS = 5,
    /* The room is too small. The needed size was set, and the room is unchanged. */
    BS_ROOM = 6,
    /* The handle is closed, or holds something else. */
    BS_CLOSED = 7,
    /* Records of BLOCKINFO blocks are named to be left out. */
    BS_NAMES = 8,
    /* A call of a writer does not fit: no tree within the limits has that item there. The writer is unchanged. */
    BS_UNFIT = 9
};

/* The limits on an input: the bytes of the whole input, wrapper included, at most 17179869180; the depth of blocks, with depth 1
   for a block at the top, at most 255; the values of all records, at most 4294967295. */
struct bs_limits {
    uint64_t bytes;
    uint32_t depth;
    uint64_t values;
    /* If true, a definition whose operands are in no lawful order is accepted, and judged when a record uses it, as LLVM's reader
       does. If false, it is refused at the definition. */
    bool shapes_at_use;
};

/* Names records: those with this code directly in blocks with this id. No name may have block 0, because without some of its
   records a BLOCKINFO block is none: a call with such a name returns BS_NAMES. */
struct bs_record_name {
    uint32_t block;
    uint64_t code;
};

/* The part of an input that is left out. Begin with BS_WHOLE, which is all zeros and leaves out nothing. A call sorts the names
   once, so the time to look up a block or a record hardly grows with their number. */
struct bs_left_out {
    /* The BLOCKINFO blocks, as if block 0 were named. */
    bool info;
    /* The blocks with these ids, at any depth and with all in them. */
    const uint32_t *blocks;
    size_t blocks_len;
    /* The records with these names. */
    const struct bs_record_name *records;
    size_t records_len;
};
#define BS_WHOLE {false, NULL, 0, NULL, 0}

/* The reason why an input was refused. All zeros if none was refused. */
struct bs_fault {
    /* The number of the reason: from 1 to 22 of an input, from 101 to 108 of a listing. */
    uint32_t reason;
    /* 0 for the only or the first input, 1 for the second. */
    uint32_t input;
    /* The bit, counted from the first bit of that input; of a listing the number of the line, counted from 1. */
    uint64_t bit;
};

/* Bytes of the library. Begin with BS_NO_BYTES. */
struct bs_bytes {
    const uint8_t *at;
    size_t len;
};
#define BS_NO_BYTES {NULL, 0}

/* The version of these calls, structures and numbers: BS_VERSION of the header, bs_version of the library. Stop if they differ. An
   added call does not change the version. */
#define BS_VERSION 1
uint32_t bs_version(void);

/* The version of the normal form, and that of a library. Keys that are made from normal forms of the same version may be compared. */
#define BS_FORM_VERSION 1
uint32_t bs_form_version(void);

/* Sets limits that suit most inputs: 1073741824 bytes, depth 64, 134217728 values, and shapes not judged at their use. */
void bs_usual_limits(struct bs_limits *limits);

/* Sets a name to that of a reason, without a zero at its end, or to no bytes if no reason has the number. The name lives as long as
   the library. */
void bs_reason_name(uint32_t number, struct bs_bytes *name);

/* Whether bytes are accepted: BS_DONE, or BS_REFUSED, BS_MEMORY, BS_LIMITS. Reads the bytes once, and holds D. */
uint32_t bs_check(const uint8_t *bytes, size_t bytes_len, const struct bs_limits *limits, struct bs_fault *fault);

/* Puts the normal form of the bytes, whole or without what is left out, at the start of the room, and sets `needed` to its length
   in bytes. The rest of the room is unchanged: BS_DONE. Or BS_ROOM: the room is too small, `needed` is set, and the room is
   unchanged. Or BS_REFUSED, BS_TOO_LONG, BS_MEMORY, BS_LIMITS, BS_NAMES: `needed` is 0, and the room is unchanged.

   Reads the bytes once for any room, so asking for the length with room 0 takes as long as the form. Holds D, N and the form,
   which may be much longer than the input and is at most the limit on bytes, and of the form 1 MiB a second time. If the length
   is not known, bs_hold_normal makes the form once. */
uint32_t bs_normal(const uint8_t *bytes, size_t bytes_len, const struct bs_limits *limits, const struct bs_left_out *left_out,
                   uint8_t *room, size_t room_len, size_t *needed, struct bs_fault *fault);

/* The same for the report of an analysis, as `bitstool analyse` prints it. It never returns BS_TOO_LONG or BS_NAMES.

   Reads the bytes once. Holds D and the rows of the analysis, at most 54 bytes for a byte of input; and the report if it fits the
   room. */
uint32_t bs_report(const uint8_t *bytes, size_t bytes_len, const struct bs_limits *limits, uint8_t *room, size_t room_len,
                   size_t *needed, struct bs_fault *fault);

/* The same for the listing, as `bitstool show` prints it, whole or without what is left out. It never returns BS_TOO_LONG.

   Reads the bytes twice, to judge them and to list them. Holds n, D, V and N; and the listing if it fits the room. A longer listing
   is counted and not held. The listing of a record has 2 to 21 bytes per value. */
uint32_t bs_show(const uint8_t *bytes, size_t bytes_len, const struct bs_limits *limits, const struct bs_left_out *left_out,
                 uint8_t *room, size_t room_len, size_t *needed, struct bs_fault *fault);

/* Puts the normal form of the tree that a listing spells at the start of the room, as `bitstool assemble` prints it, and sets
   `needed` to its length in bytes. The text is one as bs_show writes it, or in the other forms of docs/FORMAT.md. The results are
   those of bs_normal, without BS_NAMES; the form is accepted under the limits. Or BS_REFUSED with the first line that no listing
   has there. The limits are those on the form's bytes, on the depth of blocks and on the values of all records.

   Reads the text once for any room. Holds the form so far, with up to 1 MiB unused, the longest line
   and 8 bytes for each of its numbers, each in a buffer of up to twice that; and the form once more if it fits the room. A form
   has at most twice the bytes of its listing. */
uint32_t bs_assemble(const uint8_t *text, size_t text_len, const struct bs_limits *limits, uint8_t *room, size_t room_len,
                     size_t *needed, struct bs_fault *fault);

/* Whether two inputs have the same magic and the same blocks and records, whole or without what is left out: BS_DONE if they
   have, BS_DIFFERENT, or BS_REFUSED, BS_MEMORY, BS_LIMITS, BS_NAMES. The second is refused only if the first is accepted.

   Reads the first once. If the second has the same bytes, they are only compared with those of the first; if not, it is read once,
   and the first once more in step with it. Holds D of both, V of one record of each, and N. */
uint32_t bs_same(const uint8_t *first, size_t first_len, const uint8_t *second, size_t second_len, const struct bs_limits *limits,
                 const struct bs_left_out *left_out, struct bs_fault *fault);

enum {
    BS_AT_MAGIC = 1,
    /* In blocks, or at the top. */
    BS_AT_ITEM = 2
};

enum {
    BS_STANDS_MAGIC = 1,
    BS_STANDS_BLOCK = 2,
    BS_STANDS_RECORD = 3,
    /* The end of the innermost open block, or of the stream at the top. */
    BS_STANDS_END = 4
};

/* An open block: its id, and the number of items before it in the block around it, or at the top. Definitions and what is left out
   are no items. */
struct bs_open_block {
    uint32_t id;
    uint64_t items;
};

/* The item at a place of an input, and its first bit. Fields that its kind does not have are 0. */
struct bs_standing {
    /* Counted from the first bit of that input. An end begins where the last item before it in its block ended. If there is no such
       item, it begins after the length of the block, or after the magic. */
    uint64_t bit;
    uint32_t kind;
    /* The magic of the stream, its first byte first. */
    uint8_t magic[4];
    /* The id of a block. */
    uint32_t id;
    /* The code of a record, and the number of its values, the code not counted. */
    uint64_t code;
    uint64_t count;
};

/* The first values of two records with the same code that differ, counted from 0. All zeros if one list of values is a prefix of
   the other, or if there are no two such records. */
struct bs_value_difference {
    bool differ;
    uint64_t index;
    uint64_t first;
    uint64_t second;
};

/* Where two inputs first differ. All zeros if they do not differ. */
struct bs_difference {
    /* BS_AT_MAGIC or BS_AT_ITEM. */
    uint32_t place;
    /* The number of open blocks at the place: at most the limit on depth. */
    size_t depth;
    /* The number of items before the place in the innermost of them, or at the top. */
    uint64_t items;
    /* The item there in each input. */
    struct bs_standing first;
    struct bs_standing second;
    struct bs_value_difference values;
};

/* Compares two inputs, and reports where they first differ: BS_DIFFERENT, with the open blocks there in the room, the outermost
   first. Or BS_ROOM: the room is too small for them and unchanged, and all else is set. Or BS_DONE if they do not differ, or
   BS_REFUSED, BS_MEMORY, BS_LIMITS, BS_NAMES as bs_same; then the difference is all zeros, and the room is unchanged. A room for
   255 blocks is always large enough. Reads and holds what bs_same does. */
uint32_t bs_first_difference(const uint8_t *first, size_t first_len, const uint8_t *second, size_t second_len,
                             const struct bs_limits *limits, const struct bs_left_out *left_out, struct bs_difference *difference,
                             struct bs_open_block *open_room, size_t open_room_len, struct bs_fault *fault);

/* The totals of a stream, and the numbers of rows of its analysis. */
struct bs_tally {
    /* The magic of the stream, its first byte first. */
    uint8_t magic[4];
    /* The bits of the stream, from its magic to its end, without a wrapper. */
    uint64_t bits;
    /* The number of rows of block ids, and of codes over all block ids. */
    size_t blocks;
    size_t codes;
};

/* Totals of the blocks with one id. No number counts the items of blocks inside them. */
struct bs_block_row {
    uint32_t id;
    uint64_t blocks;
    uint64_t bits;
    uint64_t definitions;
    uint64_t records;
    uint64_t abbreviated;
    uint64_t values;
    /* The number of rows of codes for this row. They follow those of the row before. */
    size_t codes;
};

/* Totals of the records with one code, in blocks with one id. */
struct bs_code_row {
    uint64_t code;
    uint64_t count;
    uint64_t bits;
};

/* Analyses bytes, and sets the magic, the bits and the numbers of rows. The rows, in order of first entry, go into the rooms,
   all of them or none: BS_DONE, or BS_ROOM; or BS_REFUSED, BS_MEMORY, BS_LIMITS, and then the tally is all zeros.

   Reads the bytes once. Holds D and the rows, at most 54 bytes for a byte of input, and at the end the rows once more as the rooms
   take them. */
uint32_t bs_analyse(const uint8_t *bytes, size_t bytes_len, const struct bs_limits *limits, struct bs_tally *tally,
                    struct bs_block_row *block_room, size_t block_room_len, struct bs_code_row *code_room, size_t code_room_len,
                    struct bs_fault *fault);

/* A handle: it holds a text, the events of bytes, an input in pieces, or a tree that is written. Begin with all zeros, which is a
   closed handle. Never copy a handle. Its fields are private to the library. */
struct bs_handle {
    bool live;
    void *inner;
};

/* Makes a text, as bs_normal, bs_report and bs_show do, and holds it in the handle: BS_DONE. Or each of their other results except
   BS_ROOM, and then the handle is closed. An open handle is closed first. So a text is made once, before there is room for it.

   Reads and holds what these calls do with a room that is large enough; the handle then holds the text alone. */
uint32_t bs_hold_normal(const uint8_t *bytes, size_t bytes_len, const struct bs_limits *limits, const struct bs_left_out *left_out,
                        struct bs_handle *handle, struct bs_fault *fault);
uint32_t bs_hold_report(const uint8_t *bytes, size_t bytes_len, const struct bs_limits *limits, struct bs_handle *handle,
                        struct bs_fault *fault);
uint32_t bs_hold_show(const uint8_t *bytes, size_t bytes_len, const struct bs_limits *limits, const struct bs_left_out *left_out,
                      struct bs_handle *handle, struct bs_fault *fault);

/* Puts the held text into the room, and sets `needed` to its length in bytes: BS_DONE, or BS_ROOM; or BS_CLOSED if the handle holds
   no text. The handle stays open until bs_close frees the text. Copies, and holds nothing. */
uint32_t bs_text(struct bs_handle *handle, uint8_t *room, size_t room_len, size_t *needed, struct bs_fault *fault);

/* Puts the next bytes of the held text at the start of the room, and sets `taken` to their number: room_len, or the number of
   remaining bytes if that is less, so 0 at the end: BS_DONE. The rest of the room is unchanged. Or BS_CLOSED if the handle holds no
   text, and then `taken` is 0. The first call begins with the first byte, so a text can be written piece by piece with one small
   room. The handle still holds the whole text, which bs_text copies. Copies, and holds nothing. */
uint32_t bs_take(struct bs_handle *handle, uint8_t *room, size_t room_len, size_t *taken, struct bs_fault *fault);

enum {
    /* The whole input is accepted, and no event remains. */
    BS_OVER = 0,
    BS_ENTER = 1,
    BS_DEFINE = 2,
    BS_RECORD = 3,
    BS_LEAVE = 4
};

/* An event. Fields that its kind does not have are 0. */
struct bs_event {
    uint32_t kind;
    /* The id of a block at its beginning, or the abbreviation id of a record. */
    uint32_t id;
    /* The width of a block's abbreviation ids, at its beginning. */
    uint32_t width;
    /* The code of a record, and the number of its values, the code not counted. */
    uint64_t code;
    size_t count;
    /* The first bit of the item, 0 for a block's end; and the bit after it, for a block's beginning the first bit of its body. */
    uint64_t first;
    uint64_t after;
};

/* An operand of a definition. */
enum {
    BS_LITERAL = 0,
    /* The numbers of these kinds in the format. */
    BS_FIXED = 1,
    BS_VBR = 2,
    BS_ARRAY = 3,
    BS_CHAR6 = 4,
    BS_BLOB = 5
};
struct bs_operand {
    uint32_t kind;
    /* The value of a literal, the width in bits of BS_FIXED and BS_VBR, otherwise 0. */
    uint64_t value;
};

/* The magic of a stream, its first byte first. */
struct bs_magic_bytes {
    uint8_t bytes[4];
};

/* Begins the events of bytes: BS_DONE; or BS_REFUSED, BS_MEMORY, BS_LIMITS, and then the handle is closed. An open handle is closed
   first. The bytes must stay in place and unchanged until the handle is closed.

   Reads the magic, and a wrapper if there is one. All events together read the bytes once; the handle holds D and V, and 16 bytes
   for each operand of the definition returned last. */
uint32_t bs_open(const uint8_t *bytes, size_t bytes_len, const struct bs_limits *limits, struct bs_handle *handle,
                 struct bs_fault *fault);

/* The next event: BS_DONE. If no event remains and the whole input is accepted, the event has the kind BS_OVER, now and in each
   later call. Or BS_REFUSED or BS_MEMORY, and each later call returns the same with the same fault. Or BS_CLOSED if the handle
   holds no events. These leave the event unchanged. Reads the bytes of the event. */
uint32_t bs_next(struct bs_handle *handle, struct bs_event *event, struct bs_fault *fault);

/* Puts the values of the record returned last into the room, and sets `needed` to their number, 0 if there was none: BS_DONE, or
   BS_ROOM. After a fault, or if the handle holds no events, it returns what bs_next returns, with `needed` 0. Copies, and holds
   nothing. */
uint32_t bs_values(struct bs_handle *handle, uint64_t *room, size_t room_len, size_t *needed, struct bs_fault *fault);

/* The same for the operands of the definition returned last. `needed` is 0 if the event returned last is no definition. */
uint32_t bs_operands(struct bs_handle *handle, struct bs_operand *room, size_t room_len, size_t *needed, struct bs_fault *fault);

/* Sets the magic of the stream: BS_DONE, as soon as the events are begun, and also after a fault. Or BS_CLOSED if the handle holds
   no events, and then the magic is unchanged. */
uint32_t bs_magic(struct bs_handle *handle, struct bs_magic_bytes *magic, struct bs_fault *fault);

/* An input in pieces. A handle gathers the pieces passed to bs_feed, so a caller who reads a stream needs no buffer for all of it.
   The calls on it return what those on bytes return for all pieces together, for any cut into pieces. A closed handle is an input
   of no bytes. No piece is judged before such a call, and the handle holds all n bytes. With a handle that holds something else, the
   calls return BS_CLOSED and change nothing. */

/* Adds a piece to the input: BS_DONE. A closed handle begins an input with it. Or BS_MEMORY, and then the input is unchanged, and a
   closed handle stays closed. Or BS_CLOSED. Copies the piece. Holds at most 2 n bytes, and 3 n while the buffer grows. */
uint32_t bs_feed(struct bs_handle *handle, const uint8_t *piece, size_t piece_len, struct bs_fault *fault);

/* bs_check and bs_analyse for the input. It stays, so calls can be repeated, and more pieces can be fed. Or BS_CLOSED, and then the
   tally is all zeros. They read and hold what those calls do. */
uint32_t bs_fed_check(struct bs_handle *handle, const struct bs_limits *limits, struct bs_fault *fault);
uint32_t bs_fed_analyse(struct bs_handle *handle, const struct bs_limits *limits, struct bs_tally *tally,
                        struct bs_block_row *block_room, size_t block_room_len, struct bs_code_row *code_room, size_t code_room_len,
                        struct bs_fault *fault);

/* bs_same and bs_first_difference for two inputs in pieces. Both stay. Or BS_CLOSED if one of the handles holds something else, and
   then the difference is all zeros, and the room is unchanged. One handle may not be passed for both, as for any arguments that are
   not const; an input is the same as itself if bs_fed_check returns BS_DONE. They read and hold what those calls do. */
uint32_t bs_fed_same(struct bs_handle *first, struct bs_handle *second, const struct bs_limits *limits,
                     const struct bs_left_out *left_out, struct bs_fault *fault);
uint32_t bs_fed_first_difference(struct bs_handle *first, struct bs_handle *second, const struct bs_limits *limits,
                                 const struct bs_left_out *left_out, struct bs_difference *difference,
                                 struct bs_open_block *open_room, size_t open_room_len, struct bs_fault *fault);

/* bs_hold_normal, bs_hold_report and bs_hold_show for the input: BS_DONE, and then the handle holds the text instead of the input.
   On each other status the input stays. Or BS_CLOSED. They read and hold what those calls do, beside the input. */
uint32_t bs_fed_normal(struct bs_handle *handle, const struct bs_limits *limits, const struct bs_left_out *left_out,
                       struct bs_fault *fault);
uint32_t bs_fed_report(struct bs_handle *handle, const struct bs_limits *limits, struct bs_fault *fault);
uint32_t bs_fed_show(struct bs_handle *handle, const struct bs_limits *limits, const struct bs_left_out *left_out,
                     struct bs_fault *fault);

/* bs_open for the input: BS_DONE, and then the handle holds the events instead of the input, for bs_next, bs_values, bs_operands
   and bs_magic. Or BS_REFUSED, BS_MEMORY, BS_LIMITS, and then the input stays: if its magic was not complete, more pieces can be
   fed. Or BS_CLOSED.

   Reads the magic, and a wrapper if there is one; it copies nothing, and makes no allocation. The handle holds what one from
   bs_open holds, and all pieces. */
uint32_t bs_fed_events(struct bs_handle *handle, const struct bs_limits *limits, struct bs_fault *fault);

/* A writer. Its calls describe a tree item by item, and at the end its handle holds the normal form of that tree: the bytes that
   bs_normal makes of each input with this tree. They are accepted under the limits of the writer. A call that does not fit returns
   BS_UNFIT and changes nothing, so the writer can continue: no tree within its limits has that item there, whatever comes after it.
   If a call returns BS_MEMORY, the handle is closed. With a handle that holds no writer, a call returns BS_CLOSED and changes
   nothing.

   Each call takes time in proportion to its arguments. The handle holds the form so far, with up to 1 MiB unused, and 16 bytes for
   each open block; and nothing of the form once that is longer than the limit on bytes. */

/* Begins a tree with a magic: BS_DONE. Or BS_UNFIT for the magic of a wrapper, DE C0 17 0B, or BS_MEMORY, BS_LIMITS; then the
   handle is closed. An open handle is closed first. The limits are those on the form's bytes, on the depth of blocks and on the
   values of all records; shapes_at_use has no effect, because the form has no definitions. */
uint32_t bs_write_open(const struct bs_magic_bytes *magic, const struct bs_limits *limits, struct bs_handle *handle,
                       struct bs_fault *fault);

/* A block with this id begins, in the innermost open block or at the top: BS_DONE. Or BS_UNFIT if it is deeper than the limit, or
   if the innermost open block is a BLOCKINFO block, which has the id 0. Or BS_MEMORY, BS_CLOSED. */
uint32_t bs_write_enter(struct bs_handle *handle, uint32_t id, struct bs_fault *fault);

/* A record of the innermost open block: BS_DONE. Or BS_UNFIT if no block is open, or if the records have more values than the
   limit. In a BLOCKINFO block also if the first record has another code than 1, or if a record with code 1 has no value or a first
   value above 4294967295: that value is the id of the described block. Or BS_MEMORY, BS_CLOSED. Reads the values. */
uint32_t bs_write_record(struct bs_handle *handle, uint64_t code, const uint64_t *values, size_t values_len, struct bs_fault *fault);

/* The innermost open block ends: BS_DONE. Or BS_UNFIT if none is open. Or BS_MEMORY, BS_CLOSED. */
uint32_t bs_write_leave(struct bs_handle *handle, struct bs_fault *fault);

/* The tree ends, and the handle holds its normal form as a text, for bs_text and bs_take: BS_DONE. Or BS_UNFIT if a block is open.
   Or BS_TOO_LONG if the form has more bytes than the limit, or BS_MEMORY; then the handle is closed. Or BS_CLOSED. While the text
   is made, in a buffer of up to twice its bytes, the handle's form is held beside it. */
uint32_t bs_write_finish(struct bs_handle *handle, struct bs_fault *fault);

/* Closes a handle, and frees what it holds. Does nothing with a closed handle. */
void bs_close(struct bs_handle *handle);

#ifdef __cplusplus
}
#endif

#endif
