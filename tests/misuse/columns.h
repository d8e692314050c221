/* The calls of columns, for programs that try the library with them, after calls.h. */

/* What the rows of a column are, and how many bytes a value has. */
enum { NUMBERS, WIDE_NUMBERS, AMOUNTS, DATES, SORTS };
static const size_t widths[] = {sizeof(uint64_t), sizeof(cn_number), sizeof(int64_t),
                                sizeof(cn_day)};

static const call printing[] = {
    {.name = "chinese_numbers_print_column", .named = {10, 6, 2, 2}},
    {.name = "chinese_wide_numbers_print_column", .named = {10, 6, 2, 2}},
    {.name = "chinese_amounts_print_column", .named = {2, 16}},
    {.name = "chinese_dates_print_column", .named = {2}}};
static const call reading[] = {{.name = "chinese_numbers_read_column", .named = {10, 6}},
                               {.name = "chinese_wide_numbers_read_column", .named = {10, 6}},
                               {.name = "chinese_amounts_read_column", .named = {6}},
                               {.name = "chinese_dates_read_column"}};

/* A column: its texts are read from the buffer, or printed there from the row `base` on. */
typedef struct column {
    size_t sort, rows, offsets_length, values_length, statuses_length, bitmap_length, first;
    size_t room_length, base;
    uint32_t codes[PLACES], *statuses;
    uint64_t *offsets;
    uint8_t *values, *bitmap, *room;
} column;

#define FROM_VALUES values, it->values_length - from, it->bitmap, it->bitmap_length, first
#define TO_TEXTS \
    it->offsets + from, it->offsets_length - from, it->room, it->room_length, it->statuses + from, \
        it->statuses_length - from, done

/* Prints the rows from `from` on. Each bit beyond the greatest `first` is beyond the bitmap. */
static uint32_t print_from(const column *it, size_t from, size_t *done) {
    const void *values = it->values + from * widths[it->sort];
    const uint32_t *codes = it->codes;
    size_t first = from > SIZE_MAX - it->first ? SIZE_MAX : it->first + from;
    switch (it->sort) {
    case NUMBERS:
        return chinese_numbers_print_column(FROM_VALUES, codes[0], codes[1], codes[2], codes[3],
                                            TO_TEXTS);
    case WIDE_NUMBERS:
        return chinese_wide_numbers_print_column(FROM_VALUES, codes[0], codes[1], codes[2],
                                                 codes[3], TO_TEXTS);
    case AMOUNTS: return chinese_amounts_print_column(FROM_VALUES, codes[0], codes[1], TO_TEXTS);
    default: return chinese_dates_print_column(FROM_VALUES, codes[0], TO_TEXTS);
    }
}

#define FROM_TEXTS \
    it->room, it->room_length, it->offsets, it->offsets_length, it->bitmap, it->bitmap_length, \
        it->first
#define TO_VALUES values, it->values_length, it->statuses, it->statuses_length

static uint32_t read_column(const column *it) {
    void *values = it->values;
    const uint32_t *codes = it->codes;
    switch (it->sort) {
    case NUMBERS: return chinese_numbers_read_column(FROM_TEXTS, codes[0], codes[1], TO_VALUES);
    case WIDE_NUMBERS:
        return chinese_wide_numbers_read_column(FROM_TEXTS, codes[0], codes[1], TO_VALUES);
    case AMOUNTS: return chinese_amounts_read_column(FROM_TEXTS, codes[0], TO_VALUES);
    default: return chinese_dates_read_column(FROM_TEXTS, TO_VALUES);
    }
}
