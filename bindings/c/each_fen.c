/* each_fen [STEP [MOST]]: converts each whole number of fen from -MOST to MOST, or the first of
 * each STEP, and half as many pseudo-random ones below 10^18, to text and back: in some script and
 * form, which is also read as typed, and in figures, with commas and without. */
#include "chinese_number.h"

#include <stdio.h>
#include <stdlib.h>
#include <string.h>

/* Whether a text without a sign is that of the amount, and is also read as typed. */
static int is_magnitude(const char *text, uint64_t fen, cn_script script, cn_form form) {
    char same[CN_MOST_AMOUNT_BYTES + 1], typed[CN_MOST_AMOUNT_BYTES + 8];
    cn_amount amount;
    int length = snprintf(typed, sizeof typed, "⊗ %s ", text);
    return cn_print_amount(fen, script, form, same, sizeof same) == CN_DONE && strcmp(same, text) == 0
        && cn_read_typed_amount(typed, (size_t)length, &amount) == CN_DONE && amount.fen == fen;
}

/* Whether the amount, with its sign, is printed as a text that is read as this amount. A sign in
 * brackets is only read as typed. */
static int is_read_back(int64_t fen, uint64_t magnitude, cn_script script, cn_form form) {
    static const char *const SIGNS[][2] = {{"負", "负"}, {"（負數）", "（负数）"}};
    char text[CN_MOST_SIGNED_AMOUNT_BYTES + 1];
    const int is_bracketed = (form & CN_BRACKETED_SIGN) != 0;
    const char *sign = fen >= 0 ? "" : SIGNS[is_bracketed][script];
    cn_signed_amount amount, typed;
    int is_read;
    if (cn_print_signed_amount(fen, script, form, text, sizeof text) != CN_DONE)
        return 0;
    is_read = cn_read_signed_amount(text, strlen(text), &amount) == CN_DONE && amount.fen == fen;
    return strncmp(text, sign, strlen(sign)) == 0 && is_magnitude(text + strlen(sign), magnitude, script, form)
        && cn_read_typed_signed_amount(text, strlen(text), &typed) == CN_DONE && typed.fen == fen
        && is_read == (fen >= 0 || !is_bracketed);
}

/* Writes yuan with commas, and returns how many bytes they have. */
static int put_with_commas(char *to, uint64_t yuan) {
    int length;
    if (yuan < 1000)
        return snprintf(to, 4, "%u", (unsigned)yuan);
    length = put_with_commas(to, yuan / 1000);
    return length + snprintf(to + length, 5, ",%03u", (unsigned)(yuan % 1000));
}

static int are_read(const char *figures, int64_t fen) {
    cn_signed_amount amount;
    return cn_read_figures(figures, strlen(figures), &amount) == CN_DONE && amount.fen == fen;
}

static int are_figures_read(int64_t fen, uint64_t magnitude) {
    char yuan[32], figures[48];
    const char *sign = fen < 0 ? "-" : "";
    unsigned places = (unsigned)(magnitude % 100);
    int plain, with_commas;
    snprintf(figures, sizeof figures, "%s%llu.%02u", sign, (unsigned long long)(magnitude / 100), places);
    plain = are_read(figures, fen);
    put_with_commas(yuan, magnitude / 100);
    snprintf(figures, sizeof figures, "%s¥%s.%02u0", sign, yuan, places);
    with_commas = are_read(figures, fen);
    return plain && with_commas;
}

/* Each amount has its own script and form. */
static int is_right(int64_t fen) {
    uint64_t magnitude = fen < 0 ? 0 - (uint64_t)fen : (uint64_t)fen;
    uint64_t drawn = magnitude * UINT64_C(0x9E3779B97F4A7C15) >> 59;
    return is_read_back(fen, magnitude, (cn_script)(drawn & 1), (cn_form)(drawn >> 1)) && are_figures_read(fen, magnitude);
}

/* Of any size, and of either sign. */
static int64_t random_fen(uint64_t *state) {
    int64_t fen;
    *state ^= *state << 13;
    *state ^= *state >> 7;
    *state ^= *state << 17;
    fen = (int64_t)(*state % UINT64_C(1000000000000000000)) >> (*state >> 58);
    return *state >> 57 & 1 ? -fen : fen;
}

int main(int argc, char **argv) {
    int64_t step = argc > 1 ? atol(argv[1]) : 1, most = argc > 2 ? atol(argv[2]) : 70000;
    uint64_t state = UINT64_C(88172645463325252);
    long failed = 0;
    for (int64_t fen = -most; fen <= most; fen += step)
        failed += !is_right(fen);
    for (int64_t count = 0; count < most; count += step)
        failed += !is_right(random_fen(&state));
    if (failed != 0)
        printf("%ld amounts were not read back\n", failed);
    return failed != 0;
}
