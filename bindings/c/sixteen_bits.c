/* sixteen_bits [STEP]: prints each number of 16 bits, or the first of each STEP, in each way and as
 * an amount of fen in each form, and reads it back, also with CN_ANY. Four threads each use one
 * script and case. The text is in a block of exactly its bytes, so that a memory checker detects an
 * access beyond it. */
#include "chinese_number.h"

#include <pthread.h>
#include <stdio.h>
#include <stdlib.h>
#include <string.h>

typedef struct {
    uint32_t script, letter_case;
    int32_t step;
    long failed;
} task;

static uint32_t print(cn_number number, uint32_t kind, uint32_t way, const task *style, uint8_t *room, size_t room_length,
                      size_t *length) {
    return chinese_number_print(number.low, number.high, kind, way, style->script, style->letter_case, room, room_length,
                                length);
}

/* Whether a text is read as this number. */
static int is_read(const uint8_t *text, size_t length, cn_number number, uint32_t kind, uint32_t way) {
    cn_reading reading;
    return chinese_number_read(text, length, kind, way, &reading) == CN_DONE && reading.number.low == number.low
        && reading.number.high == number.high;
}

/* Whether the number is printed as a text that is read as this number, in the two ways of CN_ANY
 * also with CN_ANY. */
static int is_read_back(cn_number number, uint32_t kind, uint32_t way, const task *style) {
    uint8_t enough[CN_MOST_BYTES], *room;
    size_t length, same_length;
    int good, either = way == CN_DIGITS || way == CN_TEN_THOUSAND;
    if (print(number, kind, way, style, enough, sizeof enough, &length) != CN_DONE)
        return 0;
    room = (uint8_t *)malloc(length);
    good = room != NULL
        && print(number, kind, way, style, room, length, &same_length) == CN_DONE
        && same_length == length && memcmp(room, enough, length) == 0
        && is_read(room, length, number, kind, way) && (!either || is_read(room, length, number, kind, CN_ANY));
    free(room);
    return good;
}

/* The same for an amount. */
static int is_amount_read_back(uint64_t fen, uint32_t script, uint32_t form) {
    uint8_t enough[CN_MOST_AMOUNT_BYTES], *room;
    size_t length, same_length;
    cn_amount amount;
    int good;
    if (chinese_amount_print(fen, script, form, enough, sizeof enough, &length) != CN_DONE)
        return 0;
    room = (uint8_t *)malloc(length);
    good = room != NULL && chinese_amount_print(fen, script, form, room, length, &same_length) == CN_DONE
        && same_length == length && memcmp(room, enough, length) == 0
        && chinese_amount_read(room, length, &amount) == CN_DONE && amount.fen == fen;
    free(room);
    return good;
}

static void *all_numbers(void *argument) {
    task *mine = (task *)argument;
    for (int32_t value = INT16_MIN; value <= UINT16_MAX; value += mine->step) {
        uint32_t kind = value <= INT16_MAX ? CN_I16 : CN_U16;
        for (uint32_t way = CN_DIGITS; way <= CN_ANY; way++)
            mine->failed += !is_read_back(cn_signed(value), kind, way, mine);
        for (uint32_t form = CN_PLAIN; value >= 0 && form < 8; form++)
            mine->failed += !is_amount_read_back((uint64_t)value, mine->script, form);
    }
    return NULL;
}

int main(int argc, char **argv) {
    pthread_t threads[4];
    task tasks[4];
    long failed = 0;
    for (uint32_t at = 0; at < 4; at++) {
        tasks[at].script = at / 2;
        tasks[at].letter_case = at % 2;
        tasks[at].step = argc > 1 ? atoi(argv[1]) : 1;
        tasks[at].failed = 0;
        if (pthread_create(&threads[at], NULL, all_numbers, &tasks[at]) != 0)
            return 2;
    }
    for (int at = 0; at < 4; at++) {
        pthread_join(threads[at], NULL);
        failed += tasks[at].failed;
    }
    if (failed != 0)
        printf("%ld numbers were not read back\n", failed);
    return failed != 0;
}
