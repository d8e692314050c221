/* calls THREADS STEP: misuses the library and compares each answer with what chinese_number.h says:
 *  with invalid codes, buffers of each length, texts that are not UTF-8, NULL with length 0, and
 *  columns of no, one and several rows.
 *  The arguments are next to a page that must not be accessed, and all bytes that a call may not
 *  write are compared. Each thread makes the same tries, one of each STEP, and must get the same
 *  sum. Prints the number of tries, and how many went wrong. */
#define _DEFAULT_SOURCE
#include "calls.h"
#include "columns.h"

#include <pthread.h>
#include <sys/mman.h>
#include <unistd.h>

enum { MOST_THREADS = 8, TEXTS = 100000 };

/* Bytes between two pages that must not be accessed. */
static area between_pages(void) {
    size_t page = (size_t)sysconf(_SC_PAGESIZE);
    uint8_t *first = mmap(NULL, 3 * page, PROT_NONE, MAP_PRIVATE | MAP_ANONYMOUS, -1, 0);
    if (first == MAP_FAILED || mprotect(first + page, page, PROT_READ | PROT_WRITE) != 0)
        exit(2);
    memset(first + page, UNTOUCHED, page);
    return (area){first + page, first + 2 * page};
}

/* A question on a text or a value, with a room that is large enough. */
static question ample(const task *mine, const call *by) {
    question it = {by->style, mine->text.end, 0, by->values ? by->values[0] : NULL, {0}, NULL,
                   by->most, mine->told.end};
    it.room_length += by->most != 0 && by->style == IN_CHARS;
    it.room = mine->room.end - it.room_length;
    return it;
}

/* ---- Codes ---- */

/* The codes of a number in each place. Whether each of them names something. */
static int choose(const call *by, size_t number, uint32_t *codes) {
    int all = 1;
    for (size_t place = 0; place < PLACES && by->named[place] != 0; place++) {
        codes[place] = tried[number % LENGTH_OF(tried)];
        all &= codes[place] < by->named[place];
        number /= LENGTH_OF(tried);
    }
    return all;
}

/* The same of codes that name something. How many such numbers there are. */
static size_t choose_named(const call *by, size_t number, uint32_t *codes) {
    size_t all = 1;
    for (size_t place = 0; place < PLACES && by->named[place] != 0; place++) {
        codes[place] = (uint32_t)(number % by->named[place]);
        number /= by->named[place];
        all *= by->named[place];
    }
    return all;
}

/* 五 is a number of each type by each way, and in each text; speech leaves no figures of it. */
static void try_codes(task *mine, const call *by) {
    static const uint8_t five[] = {0xE4, 0xBA, 0x94};
    question it = ample(mine, by);
    size_t all = by->named[0] != 0;
    uint64_t done = by->ask == speech_left ? CN_NONE : CN_DONE;
    it.text = five;
    it.text_length = sizeof five;
    for (size_t place = 0; place < PLACES && by->named[place] != 0; place++)
        all *= LENGTH_OF(tried);
    for (size_t number = 0; number < all; number += mine->step) {
        int named = choose(by, number, it.codes);
        answer said = ask(mine, by, &it, NULL);
        judge(mine, named ? said.status == done : is_same(said, (answer){CN_UNKNOWN, {0}, 0, 0}),
              named ? "done" : "an unknown code", by, &it);
    }
}

/* ---- Buffers ---- */

/* A room of each length, directly in front of the page that nobody may touch, and directly behind
 * the other. Gives how long the text is. */
static size_t try_rooms(task *mine, const call *by, question it) {
    uint8_t text[MOST_NEW_TEXT + 1], same[MOST_NEW_TEXT + 1];
    answer whole = ask(mine, by, &it, text), said;
    for (size_t length = 0, most = it.room_length + 1; length <= most; length++)
        for (int at_end = 0; at_end < 2; at_end++) {
            it.room = at_end ? mine->room.end - length : mine->room.first;
            it.room_length = length;
            said = ask(mine, by, &it, same);
            judge(mine, is_same(said, for_room(by, &it, whole)), "the length of the text", by, &it);
            judge(mine, said.status != CN_DONE || memcmp(text, same, (size_t)said.values[0]) == 0,
                  "the same text", by, &it);
        }
    return whole.status == CN_DONE ? (size_t)whole.values[0] : 0;
}

/* A room of each length for a text of 18 bytes, 共350000000000元, or as it is spoken of 21. */
static void try_replacing(task *mine, const call *by) {
    static const uint8_t text[] = "共三千五百亿元", figures[] = "共3500亿元";
    int is_spoken = by->ask == text_to_speech;
    question it = ample(mine, by);
    it.text = is_spoken ? figures : text;
    it.text_length = is_spoken ? sizeof figures - 1 : sizeof text - 1;
    it.room_length = 24;
    it.room = mine->room.end - it.room_length;
    it.codes[1] = CN_ZHAO;
    it.codes[2] = CN_TEN_THOUSAND - CN_LOW;
    it.codes[3] = is_spoken ? 2 * CN_YAO + CN_SIMPLIFIED : CN_EXPANDED / CN_ABOUT;
    judge(mine, try_rooms(mine, by, it) == (is_spoken ? 21 : 18), "18 or 21 bytes", by, &it);
}

/* A room of each length for a message on a text that each reader refuses, or for a long answer. */
static void try_message(task *mine, const call *by) {
    static const uint8_t text[] = "百%", line[] = "print i128 low simple upper -8888888888888888";
    question it = ample(mine, by);
    it.text = takes_bytes(by) ? line : text;
    it.text_length = takes_bytes(by) ? sizeof line - 1 : sizeof text - 1;
    judge(mine, try_rooms(mine, by, it) != 0, "a message", by, &it);
}

/* Messages have less than their most bytes. */
static void try_printing(task *mine, const call *by) {
    question it = ample(mine, by);
    size_t longest = 0, all = choose_named(by, 0, it.codes) * by->count;
    for (size_t number = 0; number < all; number += mine->step) {
        size_t length;
        choose_named(by, number / by->count, it.codes);
        it.values = by->values[number % by->count];
        length = try_rooms(mine, by, it);
        longest = length > longest ? length : longest;
    }
    judge(mine, mine->step > 1 || longest == by->most || by->ask == status_message,
          "a text of the most bytes", by, &it);
}

/* ---- Texts ---- */

/* A text of up to 24 parts; of each second text some part is broken or some byte is another one, or
 * its end is cut. */
static size_t make_text(uint64_t *state, uint8_t *text) {
    size_t length = 0, count = next_random(state) % 25, breaks = next_random(state) % 6;
    for (size_t at = 0; at < count; at++) {
        int is_broken = breaks == 0 && next_random(state) % 8 == 0;
        size_t drawn = (size_t)next_random(state);
        const char *part =
            is_broken ? broken[drawn % LENGTH_OF(broken)] : parts[drawn % LENGTH_OF(parts)];
        memcpy(text + length, part, strlen(part));
        length += strlen(part);
    }
    if (breaks == 1 && length != 0)
        text[next_random(state) % length] = (uint8_t)next_random(state);
    return breaks == 2 && length != 0 ? length - 1 : length;
}

static void try_text(task *mine, const uint8_t *text, size_t length, uint64_t choice) {
    answer not_utf8 = {CN_NOT_UTF8, {0}, 0, 0}, before = not_utf8, said;
    int good = is_utf8(text, length);
    for (const call *by = calls; by < calls + LENGTH_OF(calls); by++) {
        question it = ample(mine, by);
        if (by->statuses == 0 || (by->style == TRUSTS && !good))
            continue;
        choose_named(by, (size_t)choice, it.codes);
        it.text = text;
        it.text_length = length;
        said = ask(mine, by, &it, NULL);
        judge(mine, good || takes_bytes(by) ? is_whole(by, &it, said) : is_same(said, not_utf8),
              good ? "an answer of the status" : "no UTF-8", by, &it);
        judge(mine, by->style == PROVED || is_same(said, before), "the answer of the proved call", by,
              &it);
        before = said;
    }
}

/* Each text stands directly in front of the page that nobody may touch, or directly behind the
 * other. */
static void try_texts(task *mine) {
    uint8_t text[MOST_TEXT];
    for (uint64_t number = 0; number < TEXTS; number += mine->step) {
        uint64_t state = (number + 1) * UINT64_C(0x9E3779B97F4A7C15);
        size_t length = make_text(&state, text);
        uint8_t *at = number % 2 != 0 ? mine->text.first : mine->text.end - length;
        memcpy(at, text, length);
        try_text(mine, at, length, next_random(&state));
        mine->wrong += memcmp(at, text, length) != 0;
    }
}

/* ---- Columns ---- */

enum { OF_VALUES, OF_OFFSETS, OF_STATUSES, OF_ROOM, ARRAYS, MOST_ROWS = 3 };

/* An array of so many bytes, directly before a page that must not be accessed. */
static void *array_in(area of, size_t bytes) {
    memset(of.first, UNTOUCHED, (size_t)(of.end - of.first));
    return of.end - bytes;
}

/* A row of 5, or of the date 5-5-5. */
static const void *five_of(size_t sort) {
    static const cn_number number = {5, 0};
    static const cn_day day = {5, 5, 5};
    return sort == DATES ? (const void *)&day : &number;
}

static column fives(const area *areas, size_t sort, size_t rows, size_t room_length) {
    column it = {.sort = sort, .rows = rows, .offsets_length = rows + 1, .values_length = rows,
                 .statuses_length = rows, .bitmap = areas[OF_ROOM].end, .room_length = room_length};
    it.values = array_in(areas[OF_VALUES], rows * widths[sort]);
    it.offsets = array_in(areas[OF_OFFSETS], (rows + 1) * sizeof *it.offsets);
    it.statuses = array_in(areas[OF_STATUSES], rows * sizeof *it.statuses);
    it.room = array_in(areas[OF_ROOM], room_length);
    it.offsets[0] = 0;
    for (size_t row = 0; row < rows; row++)
        memcpy(it.values + row * widths[sort], five_of(sort), widths[sort]);
    return it;
}

/* Nothing is written to an area but so many bytes from a place on. */
static int is_all(area of, const void *from, size_t bytes) {
    const uint8_t *first = from;
    return is_untouched(of.first, first) && is_untouched(first + bytes, of.end);
}

/* Prints with a room, to which as many rows are written as fit. All texts have the same length,
 * which is 0 if it is not known yet. Gives this length. */
static size_t try_printed(task *mine, const area *areas, column *it, size_t length) {
    question asked = {.text = it->room, .room_length = it->room_length};
    size_t done = 9, fit = length == 0 ? it->rows : it->room_length / length;
    uint32_t status = print_from(it, 0, &done);
    int right = done == (fit < it->rows ? fit : it->rows)
        && status == (uint32_t)(done == it->rows ? CN_DONE : CN_NO_ROOM);
    memcpy(asked.codes, it->codes, sizeof asked.codes);
    for (size_t row = 0; right && row < done; row++)
        right = it->statuses[row] == CN_DONE
            && (length == 0 || it->offsets[row + 1] == (row + 1) * length)
            && memcmp(it->room, it->room + it->offsets[row], length) == 0;
    right = right && is_all(areas[OF_ROOM], it->room, (size_t)it->offsets[done])
        && is_all(areas[OF_OFFSETS], it->offsets, (done + 1) * sizeof *it->offsets)
        && is_all(areas[OF_STATUSES], it->statuses, done * sizeof *it->statuses);
    add_to_sum(mine, it->room, it->room_length);
    mine->tries++;
    judge(mine, right, "the rows that fit, and nothing else", printing + it->sort, &asked);
    return right && it->rows != 0 ? (size_t)it->offsets[1] : 0;
}

/* Reads the texts back: all of them, and all but the last one, which ends beyond the texts. */
static void try_read_back(task *mine, const area *areas, column *it) {
    question asked = {.text = it->room, .text_length = it->room_length};
    static const cn_number zero = {0, 0};
    size_t width = widths[it->sort];
    if (it->sort == AMOUNTS)
        it->codes[0] = CN_SIGNED_AMOUNT;
    for (size_t bad = 0; bad <= (it->rows != 0); bad++) {
        size_t good = it->rows - bad;
        it->values = array_in(areas[OF_VALUES], it->rows * width);
        it->statuses = array_in(areas[OF_STATUSES], it->rows * sizeof *it->statuses);
        it->offsets[it->rows] = it->room_length + bad;
        int right = read_column(it) == CN_DONE;
        for (size_t row = 0; row < it->rows; row++) {
            const void *value = row < good ? five_of(it->sort) : &zero;
            right &= it->statuses[row] == (uint32_t)(row < good ? CN_DONE : CN_NO_ROOM)
                && memcmp(it->values + row * width, value, width) == 0;
        }
        right &= is_all(areas[OF_VALUES], it->values, it->rows * width)
            && is_all(areas[OF_STATUSES], it->statuses, it->rows * sizeof *it->statuses);
        mine->tries++;
        judge(mine, right, "each row and nothing else", reading + it->sort, &asked);
    }
}

/* A code that names nothing changes nothing. */
static void try_unknown(task *mine, const area *areas, size_t sort) {
    for (size_t place = 0; place < PLACES; place++) {
        column it = fives(areas, sort, MOST_ROWS, CN_MOST_BYTES);
        question asked = {.text = it.room};
        size_t done = 9;
        it.codes[place] = printing[sort].named[place];
        int right = it.codes[place] == 0 || (print_from(&it, 0, &done) == CN_UNKNOWN && done == 0);
        it.codes[place] = reading[sort].named[place];
        memset(it.values, UNTOUCHED, it.values_length * widths[sort]);
        right &= it.codes[place] == 0 || read_column(&it) == CN_UNKNOWN;
        right &= is_all(areas[OF_ROOM], it.room, 0) && is_all(areas[OF_VALUES], it.values, 0)
            && is_all(areas[OF_STATUSES], it.statuses, 0);
        mine->tries++;
        judge(mine, right, "an unknown code", printing + sort, &asked);
    }
}

static void try_columns(task *mine, size_t sort) {
    area areas[ARRAYS];
    size_t length = 0, all = choose_named(printing + sort, 0, (uint32_t[PLACES]){0});
    for (size_t at = 0; at < ARRAYS; at++)
        areas[at] = between_pages();
    try_unknown(mine, areas, sort);
    for (size_t number = 0; number < all; number += mine->step) {
        column it = fives(areas, sort, 1, CN_MOST_BYTES);
        choose_named(printing + sort, number, it.codes);
        length = try_printed(mine, areas, &it, 0);
        for (size_t rows = 0; rows <= MOST_ROWS; rows++)
            for (size_t room = 0; room <= rows * length; room++) {
                it = fives(areas, sort, rows, room);
                choose_named(printing + sort, number, it.codes);
                try_printed(mine, areas, &it, length);
                if (room == rows * length)
                    try_read_back(mine, areas, &it);
            }
    }
}

static void *try_all(void *argument) {
    task *mine = argument;
    mine->text = between_pages();
    mine->room = between_pages();
    mine->told = between_pages();
    for (const call *by = calls; by < calls + LENGTH_OF(calls); by++) {
        try_codes(mine, by);
        if (by->values != NULL)
            try_printing(mine, by);
        else if (is_in_figures(by))
            try_replacing(mine, by);
        else if (by->most != 0)
            try_message(mine, by);
    }
    try_texts(mine);
    for (size_t sort = 0; sort < SORTS; sort++)
        try_columns(mine, sort);
    return NULL;
}

int main(int argc, char **argv) {
    pthread_t threads[MOST_THREADS];
    task tasks[MOST_THREADS];
    size_t count = argc == 3 ? (size_t)atoi(argv[1]) : 0, tries = 0, wrong = 0;
    if (count == 0 || count > MOST_THREADS)
        return 2;
    for (size_t at = 0; at < count; at++) {
        tasks[at] = (task){.step = (size_t)atoi(argv[2])};
        if (pthread_create(&threads[at], NULL, try_all, &tasks[at]) != 0)
            return 2;
    }
    for (size_t at = 0; at < count; at++) {
        pthread_join(threads[at], NULL);
        tries += tasks[at].tries;
        wrong += tasks[at].wrong + (tasks[at].sum != tasks[0].sum);
    }
    printf("%zu tries, %zu wrong\n", tries, wrong);
    return wrong != 0;
}
