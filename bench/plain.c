/* Sends an Arrow file of one column as a stream, with the checks that `vokdrim stream --raw` makes of it, and no proof: what
   `bench/raw` measures beside it. It takes what `bench/raw` writes: little-endian files without nulls, dictionaries and pairs, of
   integers, texts, views of texts whose data buffers are used, and lists of integers. Each buffer is read by one call into memory
   that is given back behind its batch, and put in pieces of at most 65,536 bytes. */
#include "plain.h"

static void check_views(Bytes views, const Bytes *data, uint64_t count) {
    uint64_t used = 0, held = 0;
    for (uint64_t at = 0; at < views.length; at += 16) {
        check_view(views.at + at, data, count);
        used += number(views, at, 4);
    }
    for (uint64_t i = 0; i < count; i++) held += data[i].length;
    need(held < used + (used < 1024 ? used : 1024), "views that are to be laid anew");
}

/* A batch, read and checked. */

static void read_column(Batch *batch, Column column, const Header *header, uint64_t start, uint64_t body) {
    uint64_t rows = header->rows, all = UINT64_MAX;
    need(node_rows(batch->message, header, 0) == rows, "rows");
    need(rows > 0 && rows < UINT32_MAX, "rows");
    if (column.kind == INT) {
        read_buffer(batch, header, 1, start, body, column.width * rows);
    } else if (column.kind == UTF8) {
        Bytes offsets = read_buffer(batch, header, 1, start, body, 4 * (rows + 1));
        Bytes values = read_buffer(batch, header, 2, start, body, all);
        check_texts((const int32_t *)offsets.at, rows, values);
    } else if (column.kind == LIST) {
        Bytes offsets = read_buffer(batch, header, 1, start, body, 4 * (rows + 1));
        const int32_t *places = (const int32_t *)offsets.at;
        check_offsets(places, rows, node_rows(batch->message, header, 1));
        read_buffer(batch, header, 3, start, body, column.width * places[rows]);
    } else if (column.kind == UTF8_VIEW) {
        need(header->view_count == 1, "view count");
        uint64_t count = number(batch->message, 8 + header->views, 8);
        Bytes views = read_buffer(batch, header, 1, start, body, 16 * rows);
        for (uint64_t i = 0; i < count; i++) read_buffer(batch, header, 2 + i, start, body, all);
        check_views(views, batch->buffers + 1, count);
    } else {
        refuse("kind");
    }
}

static void put_batch(const Batch *batch) {
    static const uint8_t zeros[64];
    put(batch->message.at, batch->message.length);
    for (unsigned i = 0; i < batch->count; i++) {
        put(batch->buffers[i].at, batch->buffers[i].length);
        put(zeros, -batch->buffers[i].length % 64);
    }
}

static void send_block(Bytes footer, uint64_t block, Column column) {
    uint64_t at = number(footer, block, 8), metadata = number(footer, block + 8, 4), body = number(footer, block + 16, 8);
    need(at <= file_size && metadata <= file_size - at && body <= file_size - at - metadata, "block");
    Batch batch = {.message = fetch(at, metadata)};
    Header header = header_of(batch.message, body);
    read_column(&batch, column, &header, at + metadata, body);
    put_batch(&batch);
    give_back(&batch);
}

/* The schema's message, which stands behind the file's magic. */
static void send_schema(void) {
    Bytes prefix = fetch(8, 8);
    Bytes message = fetch(8, 8 + number(prefix, 4, 4));
    put(message.at, message.length);
    free(prefix.at);
    free(message.at);
}

int main(int count, char **words) {
    static const uint8_t end_mark[8] = {255, 255, 255, 255};
    need(count == 2, "one name");
    Bytes footer = open_file(words[1]);
    uint64_t root = child(footer, 0), blocks;
    Column column = column_of(footer, child(footer, slot(footer, root, 1)));
    uint64_t first = items(footer, root, 3, 24, &blocks);
    send_schema();
    for (uint64_t i = 0; i < blocks; i++) send_block(footer, first + 24 * i, column);
    put(end_mark, 8);
    free(footer.at);
    return 0;
}
