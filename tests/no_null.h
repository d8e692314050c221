/* To be included before a program: if the program then passes NULL to a call of the proved library,
 * the sanitizer for undefined behaviour ends it. */
#include <stddef.h>
#include <stdint.h>

#ifdef __cplusplus
extern "C" {
#endif

struct cn_reading;
struct cn_span;
struct cn_quantity;
struct cn_phrase;
struct cn_amount;
struct cn_signed_amount;
struct cn_date;
struct cn_expected;
struct cn_repair;
struct cn_number;
struct cn_day;

#define NO_NULL __attribute__((nonnull)) uint32_t
NO_NULL chinese_number_read(const uint8_t *, size_t, uint32_t, uint32_t, struct cn_reading *);
NO_NULL chinese_number_read_utf8(const uint8_t *, size_t, uint32_t, uint32_t, struct cn_reading *);
NO_NULL chinese_number_print(uint64_t, uint64_t, uint32_t, uint32_t, uint32_t, uint32_t, uint8_t *, size_t, size_t *);
NO_NULL chinese_number_find(const uint8_t *, size_t, size_t, uint32_t, uint32_t, struct cn_span *, size_t, size_t *);
NO_NULL chinese_number_find_utf8(const uint8_t *, size_t, size_t, uint32_t, uint32_t, struct cn_span *, size_t, size_t *);
NO_NULL chinese_quantity_read(const uint8_t *, size_t, uint32_t, struct cn_quantity *);
NO_NULL chinese_quantity_find(const uint8_t *, size_t, size_t, uint32_t, uint32_t, struct cn_span *, size_t, size_t *);
NO_NULL chinese_quantity_find_utf8(const uint8_t *, size_t, size_t, uint32_t, uint32_t, struct cn_span *, size_t, size_t *);
NO_NULL chinese_phrase_find(const uint8_t *, size_t, size_t, uint32_t, uint32_t, struct cn_phrase *, size_t, size_t *);
NO_NULL chinese_phrase_find_utf8(const uint8_t *, size_t, size_t, uint32_t, uint32_t, struct cn_phrase *, size_t, size_t *);
NO_NULL chinese_range_read(const uint8_t *, size_t, const uint8_t *, size_t, struct cn_quantity *, struct cn_quantity *);
NO_NULL chinese_quantity_print(const struct cn_quantity *, uint32_t, uint32_t, uint32_t, uint8_t *, size_t, size_t *);
NO_NULL chinese_quantity_figures(const struct cn_quantity *, uint8_t *, size_t, size_t *);
NO_NULL chinese_quantities_to_figures(const uint8_t *, size_t, uint32_t, uint32_t, uint32_t, uint32_t, uint8_t *, size_t, size_t *);
NO_NULL chinese_text_to_figures(const uint8_t *, size_t, uint32_t, uint32_t, uint32_t, uint32_t, uint8_t *, size_t, size_t *);
NO_NULL chinese_text_to_speech(const uint8_t *, size_t, uint32_t, uint32_t, uint32_t, uint32_t, uint32_t, uint8_t *, size_t, uint8_t *, size_t, size_t *);
NO_NULL chinese_speech_left(const uint8_t *, size_t, size_t, uint32_t, uint32_t, uint8_t *, size_t, struct cn_span *, size_t, size_t *);
NO_NULL chinese_amount_print(uint64_t, uint32_t, uint32_t, uint8_t *, size_t, size_t *);
NO_NULL chinese_amount_read(const uint8_t *, size_t, struct cn_amount *);
NO_NULL chinese_typed_amount_read(const uint8_t *, size_t, struct cn_amount *);
NO_NULL chinese_signed_amount_print(int64_t, uint32_t, uint32_t, uint8_t *, size_t, size_t *);
NO_NULL chinese_signed_amount_read(const uint8_t *, size_t, struct cn_signed_amount *);
NO_NULL chinese_typed_signed_amount_read(const uint8_t *, size_t, struct cn_signed_amount *);
NO_NULL chinese_figures_read(const uint8_t *, size_t, struct cn_signed_amount *);
NO_NULL chinese_date_print(uint32_t, uint32_t, uint32_t, uint32_t, uint8_t *, size_t, size_t *);
NO_NULL chinese_date_read(const uint8_t *, size_t, struct cn_date *);
NO_NULL chinese_numbers_print_column(const uint64_t *, size_t, const uint8_t *, size_t, size_t, uint32_t, uint32_t, uint32_t, uint32_t, uint64_t *, size_t, uint8_t *, size_t, uint32_t *, size_t, size_t *);
NO_NULL chinese_wide_numbers_print_column(const struct cn_number *, size_t, const uint8_t *, size_t, size_t, uint32_t, uint32_t, uint32_t, uint32_t, uint64_t *, size_t, uint8_t *, size_t, uint32_t *, size_t, size_t *);
NO_NULL chinese_amounts_print_column(const int64_t *, size_t, const uint8_t *, size_t, size_t, uint32_t, uint32_t, uint64_t *, size_t, uint8_t *, size_t, uint32_t *, size_t, size_t *);
NO_NULL chinese_dates_print_column(const struct cn_day *, size_t, const uint8_t *, size_t, size_t, uint32_t, uint64_t *, size_t, uint8_t *, size_t, uint32_t *, size_t, size_t *);
NO_NULL chinese_numbers_read_column(const uint8_t *, size_t, const uint64_t *, size_t, const uint8_t *, size_t, size_t, uint32_t, uint32_t, uint64_t *, size_t, uint32_t *, size_t);
NO_NULL chinese_wide_numbers_read_column(const uint8_t *, size_t, const uint64_t *, size_t, const uint8_t *, size_t, size_t, uint32_t, uint32_t, struct cn_number *, size_t, uint32_t *, size_t);
NO_NULL chinese_amounts_read_column(const uint8_t *, size_t, const uint64_t *, size_t, const uint8_t *, size_t, size_t, uint32_t, int64_t *, size_t, uint32_t *, size_t);
NO_NULL chinese_dates_read_column(const uint8_t *, size_t, const uint64_t *, size_t, const uint8_t *, size_t, size_t, struct cn_day *, size_t, uint32_t *, size_t);
NO_NULL chinese_input_expected(const uint8_t *, size_t, uint32_t, struct cn_expected *);
NO_NULL chinese_input_repair(const uint8_t *, size_t, uint32_t, struct cn_repair *);
NO_NULL chinese_number_explain(const uint8_t *, size_t, uint32_t, uint32_t, uint32_t *);
NO_NULL chinese_quantity_explain(const uint8_t *, size_t, uint32_t, uint32_t *);
NO_NULL chinese_input_message(const uint8_t *, size_t, uint32_t, uint32_t, uint8_t *, size_t, size_t *);
NO_NULL chinese_number_message(const uint8_t *, size_t, uint32_t, uint32_t, uint32_t, uint8_t *, size_t, size_t *);
NO_NULL chinese_quantity_message(const uint8_t *, size_t, uint32_t, uint32_t, uint8_t *, size_t, size_t *);
NO_NULL chinese_status_message(uint32_t, uint32_t, uint8_t *, size_t, size_t *);
NO_NULL chinese_number_answer_line(const uint8_t *, size_t, uint8_t *, size_t, size_t *);

#ifdef __cplusplus
}
#endif
