/* Prints an Arrow file as `vokdrim csv` does, with the checks that it makes, and no proof: what `bench/csv` measures beside it. It takes what
   `bench/csv` writes: little-endian files without nulls and dictionaries, of 64-bit integers and of texts. Rows go out in pieces. */
#include "plain.h"

enum { MOST_COLUMNS = 16 };

static uint8_t out[PIECE];
static uint64_t out_count;

static void flush(void) {
    put(out, out_count);
    out_count = 0;
}

static inline void put_byte(uint8_t byte) {
    if (out_count == PIECE) flush();
    out[out_count++] = byte;
}

static void put_integer(int64_t number) {
    uint8_t digits[20];
    unsigned count = 0;
    uint64_t left = number < 0 ? -(uint64_t)number : (uint64_t)number;
    do digits[count++] = '0' + left % 10;
    while (left /= 10);
    if (PIECE - out_count < 21) flush();
    if (number < 0) out[out_count++] = '-';
    while (count) out[out_count++] = digits[--count];
}

/* In quotes where it has a comma, a quotation mark or an end of a line. */
static void put_text(const uint8_t *text, uint64_t length) {
    int is_quoted = 0;
    for (uint64_t i = 0; i < length; i++) is_quoted |= text[i] == ',' || text[i] == '"' || text[i] == '\n' || text[i] == '\r';
    if (is_quoted) {
        put_byte('"');
        for (uint64_t i = 0; i < length; i++) {
            if (text[i] == '"') put_byte('"');
            put_byte(text[i]);
        }
        put_byte('"');
        return;
    }
    if (PIECE - out_count < length) flush();
    if (length > PIECE) {
        put(text, length);
        return;
    }
    memcpy(out + out_count, text, length);
    out_count += length;
}

static uint64_t columns_of(Bytes footer, uint64_t schema, Column *columns) {
    uint64_t count;
    need(scalar(footer, schema, 0, 2) == 0, "byte order");
    uint64_t fields = items(footer, schema, 1, 4, &count);
    need(count > 0 && count <= MOST_COLUMNS, "columns");
    for (uint64_t i = 0; i < count; i++) {
        uint64_t field = child(footer, fields + 4 * i), name = slot(footer, field, 0);
        columns[i] = (Column){scalar(footer, field, 2, 1), 0};
        need(slot(footer, field, 4) == 0, "dictionary");
        need(columns[i].kind == UTF8 || (columns[i].kind == INT && integer_width(footer, field) == 8), "kind");
        name = child(footer, name);
        put_text(footer.at + name + 4, number(footer, name, 4));
        put_byte(i + 1 < count ? ',' : '\n');
    }
    return count;
}

static void read_columns(Batch *batch, const Column *columns, uint64_t count, const Header *header, uint64_t start, uint64_t body) {
    uint64_t buffer = 0;
    for (uint64_t i = 0; i < count; i++) {
        need(node_rows(batch->message, header, i) == header->rows, "rows");
        if (columns[i].kind == INT) {
            read_buffer(batch, header, buffer + 1, start, body, 8 * header->rows);
            buffer += 2;
        } else {
            Bytes offsets = read_buffer(batch, header, buffer + 1, start, body, 4 * (header->rows + 1));
            Bytes values = read_buffer(batch, header, buffer + 2, start, body, UINT64_MAX);
            check_texts((const int32_t *)offsets.at, header->rows, values);
            buffer += 3;
        }
    }
}

static void put_rows(const Batch *batch, const Column *columns, uint64_t count, uint64_t rows) {
    for (uint64_t row = 0; row < rows; row++) {
        const Bytes *held = batch->buffers;
        for (uint64_t i = 0; i < count; i++) {
            if (columns[i].kind == INT) {
                put_integer(((const int64_t *)held[0].at)[row]);
                held += 1;
            } else {
                const int32_t *offsets = (const int32_t *)held[0].at;
                if (count == 1 && offsets[row] == offsets[row + 1]) put_byte('"'), put_byte('"');
                put_text(held[1].at + offsets[row], offsets[row + 1] - offsets[row]);
                held += 2;
            }
            put_byte(i + 1 < count ? ',' : '\n');
        }
    }
}

static void print_block(Bytes footer, uint64_t block, const Column *columns, uint64_t count) {
    uint64_t at = number(footer, block, 8), metadata = number(footer, block + 8, 4), body = number(footer, block + 16, 8);
    need(at <= file_size && metadata <= file_size - at && body <= file_size - at - metadata, "block");
    Batch batch = {.message = fetch(at, metadata)};
    Header header = header_of(batch.message, body);
    read_columns(&batch, columns, count, &header, at + metadata, body);
    put_rows(&batch, columns, count, header.rows);
    give_back(&batch);
}

int main(int count, char **words) {
    need(count == 2, "one name");
    Bytes footer = open_file(words[1]);
    uint64_t root = child(footer, 0), blocks;
    Column columns[MOST_COLUMNS];
    uint64_t width = columns_of(footer, child(footer, slot(footer, root, 1)), columns);
    uint64_t first = items(footer, root, 3, 24, &blocks);
    for (uint64_t i = 0; i < blocks; i++) print_block(footer, first + 24 * i, columns, width);
    flush();
    free(footer.at);
    return 0;
}
