/* What the plain programs of the benchmarks share: a file of the forms that `bench/raw`, `bench/csv` and `bench/views` write, read and
   checked as `vokdrim` does it, with no proof. Each buffer is read by one call into memory that is given back behind its batch, or is
   taken otherwise where a program says so. */
#include <fcntl.h>
#include <stdint.h>
#include <stdio.h>
#include <stdlib.h>
#include <string.h>
#include <sys/stat.h>
#include <unistd.h>

enum { PIECE = 65536, MOST_BUFFERS = 64 };
enum { INT = 2, UTF8 = 5, LIST = 12, UTF8_VIEW = 24 };
enum { RECORD_BATCH = 3 };

typedef struct {
    uint8_t *at;
    uint64_t length;
} Bytes;

typedef struct {
    int kind;
    uint64_t width; /* Bytes of an integer: the column's, or that of the lists' items. */
} Column;

typedef struct {
    uint64_t rows, nodes, buffers, views;          /* Where the nodes, the buffers and the view counts begin; 0 where absent. */
    uint64_t node_count, buffer_count, view_count; /* How many there are. */
} Header;

typedef struct {
    Bytes message;
    Bytes buffers[MOST_BUFFERS];
    unsigned count;
} Batch;

static uint64_t file_size;

static void refuse(const char *why) {
    fprintf(stderr, "refused: %s\n", why);
    exit(1);
}

static void need(int holds, const char *what) {
    if (!holds) refuse(what);
}

/* Bytes of the file and of the output. */

static void put_bytes(const uint8_t *bytes, uint64_t length) {
    for (uint64_t done = 0; done < length;) {
        uint64_t most = length - done < PIECE ? length - done : PIECE;
        ssize_t count = write(1, bytes + done, most);
        need(count > 0, "write");
        done += count;
    }
}

#ifdef HEX_TEXT
#include "plain_hex.h"
#else
static int file;

static void read_at(uint8_t *to, uint64_t at, uint64_t length) {
    for (uint64_t done = 0; done < length;) {
        ssize_t count = pread(file, to + done, length - done, at + done);
        need(count > 0, "read");
        done += count;
    }
}

static void put(const uint8_t *bytes, uint64_t length) { put_bytes(bytes, length); }

static void open_bytes(const char *name) {
    struct stat told;
    need((file = open(name, O_RDONLY)) >= 0 && fstat(file, &told) == 0, "open");
    file_size = told.st_size;
}
#endif

static Bytes fetch(uint64_t at, uint64_t length) {
    need(length <= file_size && at <= file_size - length, "range");
    Bytes bytes = {malloc(length ? length : 1), length};
    need(bytes.at != NULL, "memory");
    read_at(bytes.at, at, length);
    return bytes;
}

/* How a buffer is taken. */
static Bytes (*take)(uint64_t at, uint64_t length) = fetch;

/* Flatbuffers: tables, and slots that are looked at within their bytes. */

static uint64_t number(Bytes in, uint64_t at, unsigned width) {
    uint64_t value = 0;
    need(at <= in.length && width <= in.length - at, "flatbuffer");
    memcpy(&value, in.at + at, width);
    return value;
}

static uint64_t child(Bytes in, uint64_t at) { return at + number(in, at, 4); }

static uint64_t slot(Bytes in, uint64_t table, unsigned index) {
    uint64_t vtable = table - (int64_t)(int32_t)number(in, table, 4);
    if (4 + 2 * index + 2 > number(in, vtable, 2)) return 0;
    uint64_t entry = number(in, vtable + 4 + 2 * index, 2);
    return entry ? table + entry : 0;
}

static uint64_t scalar(Bytes in, uint64_t table, unsigned index, unsigned width) {
    uint64_t at = slot(in, table, index);
    return at ? number(in, at, width) : 0;
}

/* Where the items of a vector begin; how many there are goes to `count`. */
static uint64_t items(Bytes in, uint64_t table, unsigned index, unsigned width, uint64_t *count) {
    uint64_t at = slot(in, table, index);
    *count = 0;
    if (!at) return 0;
    at = child(in, at);
    *count = number(in, at, 4);
    need(*count * width <= in.length - at - 4, "vector");
    return at + 4;
}

/* Opens a file and gives its footer. */
static Bytes open_file(const char *name) {
    open_bytes(name);
    need(file_size >= 10, "size");
    Bytes trailer = fetch(file_size - 10, 10);
    need(memcmp(trailer.at + 4, "ARROW1", 6) == 0, "magic");
    uint64_t length = number(trailer, 0, 4);
    need(length <= file_size - 10, "footer");
    free(trailer.at);
    return fetch(file_size - 10 - length, length);
}

static uint64_t integer_width(Bytes in, uint64_t field) { return scalar(in, child(in, slot(in, field, 3)), 0, 4) / 8; }

/* The footer's schema: one column. */

static Column column_of(Bytes footer, uint64_t schema) {
    uint64_t count;
    need(scalar(footer, schema, 0, 2) == 0, "byte order");
    uint64_t fields = items(footer, schema, 1, 4, &count);
    need(count == 1, "one column");
    uint64_t field = child(footer, fields);
    Column column = {scalar(footer, field, 2, 1), 0};
    need(slot(footer, field, 4) == 0, "dictionary");
    if (column.kind == INT) column.width = integer_width(footer, field);
    if (column.kind == LIST) {
        uint64_t below = items(footer, field, 5, 4, &count);
        need(count == 1 && scalar(footer, child(footer, below), 2, 1) == INT, "child");
        column.width = integer_width(footer, child(footer, below));
    }
    return column;
}

/* A record batch's message. */

static Header header_of(Bytes message, uint64_t body) {
    need(number(message, 0, 4) == UINT32_MAX && number(message, 4, 4) <= message.length - 8, "prefix");
    Bytes in = {message.at + 8, message.length - 8};
    uint64_t root = child(in, 0), sum = 0;
    need(scalar(in, root, 0, 2) >= 3 && scalar(in, root, 0, 2) <= 4, "version");
    need(scalar(in, root, 1, 1) == RECORD_BATCH && scalar(in, root, 3, 8) <= INT64_MAX, "header");
    need(slot(in, root, 4) == 0, "pairs");
    uint64_t batch = child(in, slot(in, root, 2));
    Header header = {.rows = scalar(in, batch, 0, 8)};
    need(header.rows <= INT64_MAX && slot(in, batch, 3) == 0, "length and compression");
    header.nodes = items(in, batch, 1, 16, &header.node_count);
    header.buffers = items(in, batch, 2, 16, &header.buffer_count);
    header.views = items(in, batch, 4, 8, &header.view_count);
    for (uint64_t i = 0; i < header.buffer_count; i++) {
        uint64_t length = number(in, header.buffers + 16 * i + 8, 8);
        need(length <= body && (sum += length) <= file_size, "buffer lengths");
    }
    return header;
}

static uint64_t node_rows(Bytes message, const Header *header, uint64_t index) {
    need(index < header->node_count, "node");
    need(number(message, 8 + header->nodes + 16 * index + 8, 8) == 0, "nulls");
    return number(message, 8 + header->nodes + 16 * index, 8);
}

/* Fetches so many bytes of a buffer, or all. */
static Bytes read_buffer(Batch *batch, const Header *header, uint64_t index, uint64_t start, uint64_t body, uint64_t size) {
    need(index < header->buffer_count && batch->count < MOST_BUFFERS, "buffer");
    uint64_t offset = number(batch->message, 8 + header->buffers + 16 * index, 8);
    uint64_t length = number(batch->message, 8 + header->buffers + 16 * index + 8, 8);
    need(offset <= body && length <= body - offset, "buffer range");
    if (size != UINT64_MAX) need(size <= length, "buffer length");
    Bytes bytes = take(start + offset, size == UINT64_MAX ? length : size);
    return batch->buffers[batch->count++] = bytes;
}

/* The checks of a column's bytes. */

static uint64_t eight(const uint8_t *s) {
    uint64_t word;
    memcpy(&word, s, 8);
    return word;
}

static int is_ascii(const uint8_t *s, uint64_t length) {
    uint64_t i = 0, all = 0;
    for (; i + 8 <= length; i += 8) all |= eight(s + i);
    if (length >= 8) return ((all | eight(s + length - 8)) & 0x8080808080808080) == 0;
    for (; i < length; i++) all |= s[i];
    return all < 0x80;
}

static int follows(uint8_t byte) { return (byte & 0xC0) == 0x80; }

/* Whether a byte cannot stand behind the three before it, of which `a` is the nearest. */
static uint8_t is_wrong(uint8_t byte, uint8_t a, uint8_t b, uint8_t c) {
    uint8_t is_due = (a >= 0xC0) | (b >= 0xE0) | (c >= 0xF0);
    uint8_t is_low = ((a == 0xE0) & (byte < 0xA0)) | ((a == 0xF0) & (byte < 0x90));
    uint8_t is_high = ((a == 0xED) & (byte >= 0xA0)) | ((a == 0xF4) & (byte >= 0x90));
    uint8_t is_never = ((byte & 0xFE) == 0xC0) | (byte >= 0xF5);
    return (is_due ^ follows(byte)) | is_low | is_high | is_never;
}

__attribute__((optimize("O3"))) static int is_utf8(const uint8_t *s, uint64_t length) {
    if (is_ascii(s, length)) return 1;
    static const uint8_t leads[3] = {0xC0, 0xE0, 0xF0}; /* From these on, one, two or three bytes follow. */
    uint8_t front[6] = {0}, wrong = 0;
    memcpy(front + 3, s, length < 3 ? length : 3);
    for (uint64_t i = 3; i < 6 && i < length + 3; i++) wrong |= is_wrong(front[i], front[i - 1], front[i - 2], front[i - 3]);
    for (uint64_t i = 3; i < length; i++) wrong |= is_wrong(s[i], s[i - 1], s[i - 2], s[i - 3]);
    for (uint64_t i = 0; i < 3 && i < length; i++) wrong |= s[length - 1 - i] >= leads[i];
    return !wrong;
}

/* The offsets rise within a limit. */
static void check_offsets(const int32_t *offsets, uint64_t rows, uint64_t limit) {
    int32_t low = 0;
    for (uint64_t i = 0; i <= rows; i++) {
        need(offsets[i] >= low, "offsets");
        low = offsets[i];
    }
    need((uint64_t)low <= limit, "offsets");
}

static void check_texts(const int32_t *offsets, uint64_t rows, Bytes values) {
    check_offsets(offsets, rows, values.length);
    uint64_t end = offsets[rows];
    need(is_utf8(values.at + offsets[0], end - offsets[0]), "text");
    for (uint64_t i = 0; i <= rows; i++) need((uint64_t)offsets[i] == end || !follows(values.at[offsets[i]]), "text");
}

/* A view is short and padded with zeros, or leads to bytes of a data buffer that begin as it says. */
static void check_view(const uint8_t *at, const Bytes *data, uint64_t count) {
    uint32_t view[4];
    unsigned __int128 whole;
    memcpy(view, at, 16);
    memcpy(&whole, at, 16);
    if (view[0] <= 12) {
        need(view[0] == 12 || whole >> (32 + 8 * view[0]) == 0, "view");
        need(is_utf8(at + 4, 12), "text"); /* With the padding, which is of no other character. */
        return;
    }
    need(view[2] < count && (uint64_t)view[3] + view[0] <= data[view[2]].length, "view");
    const uint8_t *bytes = data[view[2]].at + view[3];
    need(memcmp(bytes, view + 1, 4) == 0, "view");
    need(is_utf8(bytes, view[0]), "text");
}

static void give_back(Batch *batch) {
    free(batch->message.at);
    for (unsigned i = 0; i < batch->count; i++) free(batch->buffers[i].at);
}
