/* Looks at the columns of an Arrow file in memory, with the checks that views of them are made with, and no proof: what `bench/views`
   measures beside these. It takes what `bench/views` writes: little-endian files without nulls, dictionaries and pairs, of one column of
   integers, texts, views of texts or lists of integers. Buffers are lent where they lie, or copied; the cells of all rows are added up,
   of texts their bytes counted, where that is asked for. */
#include "plain.h"

static Bytes whole;

static Bytes lent(uint64_t at, uint64_t length) {
    need(length <= whole.length && at <= whole.length - length, "range");
    return (Bytes){whole.at + at, length};
}

static Bytes copied(uint64_t at, uint64_t length) {
    Bytes from = lent(at, length), bytes = {malloc(length ? length : 1), length};
    need(bytes.at != NULL, "memory");
    memcpy(bytes.at, from.at, length);
    return bytes;
}

/* A batch, taken and checked. */

static void take_column(Batch *batch, Column column, const Header *header, uint64_t start, uint64_t body) {
    uint64_t rows = header->rows, all = UINT64_MAX;
    need(node_rows(batch->message, header, 0) == rows, "rows");
    if (column.kind == INT) {
        read_buffer(batch, header, 1, start, body, column.width * rows);
    } else if (column.kind == UTF8) {
        Bytes offsets = read_buffer(batch, header, 1, start, body, 4 * (rows + 1));
        check_texts((const int32_t *)offsets.at, rows, read_buffer(batch, header, 2, start, body, all));
    } else if (column.kind == LIST) {
        Bytes offsets = read_buffer(batch, header, 1, start, body, 4 * (rows + 1));
        const int32_t *places = (const int32_t *)offsets.at;
        check_offsets(places, rows, node_rows(batch->message, header, 1));
        read_buffer(batch, header, 3, start, body, column.width * places[rows]);
    } else {
        need(column.kind == UTF8_VIEW && header->view_count == 1, "kind");
        uint64_t count = number(batch->message, 8 + header->views, 8);
        Bytes views = read_buffer(batch, header, 1, start, body, 16 * rows);
        for (uint64_t i = 0; i < count; i++) read_buffer(batch, header, 2 + i, start, body, all);
        for (uint64_t row = 0; row < rows; row++) check_view(views.at + 16 * row, batch->buffers + 1, count);
    }
}

/* The cells of a batch, row by row. */

static int64_t integer(Bytes bytes, uint64_t width, uint64_t row) {
    if (width == 4) return ((const int32_t *)bytes.at)[row];
    return ((const int64_t *)bytes.at)[row];
}

static __int128 sum_of(const Batch *batch, Column column, uint64_t rows) {
    const Bytes *held = batch->buffers;
    const int32_t *offsets = (const int32_t *)held[0].at;
    __int128 sum = 0;
    for (uint64_t row = 0; row < rows; row++) {
        if (column.kind == INT) sum += integer(held[0], column.width, row);
        if (column.kind == UTF8) sum += offsets[row + 1] - offsets[row];
        if (column.kind == UTF8_VIEW) sum += ((const uint32_t *)held[0].at)[4 * row];
        if (column.kind == LIST) {
            for (int32_t i = offsets[row]; i < offsets[row + 1]; i++) sum += integer(held[1], column.width, i);
        }
    }
    return sum;
}

static __int128 take_block(Bytes footer, uint64_t block, Column column, int is_summed) {
    uint64_t at = number(footer, block, 8), metadata = number(footer, block + 8, 4), body = number(footer, block + 16, 8);
    need(at <= file_size && metadata <= file_size - at && body <= file_size - at - metadata, "block");
    Batch batch = {.message = take(at, metadata)};
    Header header = header_of(batch.message, body);
    take_column(&batch, column, &header, at + metadata, body);
    __int128 sum = is_summed ? sum_of(&batch, column, header.rows) : header.rows;
    if (take == copied) give_back(&batch);
    return sum;
}

static void put_number(__int128 number) {
    char digits[48];
    unsigned at = sizeof digits;
    unsigned __int128 left = number < 0 ? -(unsigned __int128)number : number;
    digits[--at] = '\n';
    do digits[--at] = '0' + left % 10;
    while (left /= 10);
    if (number < 0) digits[--at] = '-';
    put((const uint8_t *)digits + at, sizeof digits - at);
}

/* What is to be done, and a file's name: `load` takes the file into memory, `look` and `read` count rows over lent and over copied buffers,
   `sum-views` and `sum-arrays` add up cells. */
int main(int count, char **words) {
    need(count == 3, "a word and a name");
    int is_summed = strncmp(words[1], "sum-", 4) == 0;
    int is_lent = strcmp(words[1], "look") == 0 || strcmp(words[1], "sum-views") == 0;
    Bytes footer = open_file(words[2]);
    whole = fetch(0, file_size);
    if (strcmp(words[1], "load") == 0) return 0;
    take = is_lent ? lent : copied;
    uint64_t root = child(footer, 0), blocks;
    __int128 sum = 0;
    Column column = column_of(footer, child(footer, slot(footer, root, 1)));
    uint64_t first = items(footer, root, 3, 24, &blocks);
    for (uint64_t i = 0; i < blocks; i++) sum += take_block(footer, first + 24 * i, column, is_summed);
    put_number(sum);
    free(footer.at);
    free(whole.at);
    return 0;
}
