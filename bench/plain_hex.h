/* The file as hex text on standard input, with white space between digits, and hex text put: digits are decoded and made by tables, in
   pieces that stay in the cache. */

static uint8_t *held;
static uint8_t values[256], pairs[512];

static void make_tables(void) {
    static const char digits[] = "0123456789abcdef";
    memset(values, 255, sizeof values);
    for (int i = 0; i < 16; i++) {
        values[(uint8_t)digits[i]] = i;
        if (i > 9) values[digits[i] - 32] = i;
    }
    for (int i = 0; i < 256; i++) {
        pairs[2 * i] = digits[i >> 4];
        pairs[2 * i + 1] = digits[i & 15];
    }
}

static int is_white(uint8_t c) { return c == ' ' || c == '\t' || c == '\n' || c == '\f' || c == '\r'; }

/* Decodes a text behind the bytes that are held; a digit whose second has not come is -1 where there is none. */
static int decode(const uint8_t *text, uint64_t length, int waiting) {
    for (uint64_t at = 0; at < length;) {
        if (waiting < 0) {
            uint8_t *to = held + file_size;
            for (; at + 1 < length; at += 2) {
                uint8_t high = values[text[at]], low = values[text[at + 1]];
                if ((high | low) & 128) break;
                *to++ = high << 4 | low;
            }
            file_size = to - held;
            if (at == length) break;
        }
        uint8_t c = text[at++];
        if (is_white(c)) continue;
        need(values[c] < 16, "hex");
        if (waiting < 0) {
            waiting = values[c];
        } else {
            held[file_size++] = waiting << 4 | values[c];
            waiting = -1;
        }
    }
    return waiting;
}

static void open_bytes(const char *name) {
    static uint8_t text[PIECE];
    uint64_t room = 0;
    int waiting = -1;
    make_tables();
    need(strcmp(name, "-") == 0, "hex text on standard input");
    for (ssize_t count; (count = read(0, text, PIECE)) > 0;) {
        if (room < file_size + count) {
            room = 2 * room + PIECE;
            need((held = realloc(held, room)) != NULL, "memory");
        }
        waiting = decode(text, count, waiting);
    }
    need(waiting < 0, "hex");
}

static void read_at(uint8_t *to, uint64_t at, uint64_t length) { memcpy(to, held + at, length); }

static void put(const uint8_t *bytes, uint64_t length) {
    static uint8_t digits[PIECE];
    for (uint64_t done = 0; done < length;) {
        uint64_t most = length - done < PIECE / 2 ? length - done : PIECE / 2;
        for (uint64_t i = 0; i < most; i++) memcpy(digits + 2 * i, pairs + 2 * bytes[done + i], 2);
        put_bytes(digits, 2 * most);
        done += most;
    }
}
