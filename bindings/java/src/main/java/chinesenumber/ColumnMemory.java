package chinesenumber;

import static chinesenumber.Instance.TEXT;

import java.time.LocalDate;

/**
 * A piece of a column in the memory of an instance: values, statuses, a bitmap of the rows that are
 * not null, offsets, and the bytes of the texts. It has so few rows that the pool keeps the memory,
 * and so many that the call for them costs little beside a row.
 */
final class ColumnMemory {
    static final int MOST_ROWS = 256;
    static final int VALUES = TEXT;
    static final int STATUSES = VALUES + 12 * MOST_ROWS;
    static final int BITMAP = STATUSES + 4 * MOST_ROWS;
    static final int BITMAP_BYTES = MOST_ROWS / 8;
    static final int OFFSETS = BITMAP + BITMAP_BYTES;
    static final int BYTES = OFFSETS + 8 * (MOST_ROWS + 1);
    /** As many bytes as the texts of a piece can have that is printed. */
    static final int MOST_BYTES = MOST_ROWS * Codes.MOST_BYTES;

    /** A piece that is read ends after the text that reaches so many units. */
    private static final int MOST_UNITS = 1 << 14;

    final Instance instance = Instance.acquire();
    /** How many bytes the texts have that are read. */
    int textBytes;

    ColumnMemory() {
        instance.reserve(BYTES - TEXT + MOST_BYTES);
        Words.put64(instance.bytes, OFFSETS - State.BASE, 0);
    }

    // Each of these puts the values of a piece, and returns how many rows it has.

    int put(long[] values, int from) {
        int count = Math.min(MOST_ROWS, values.length - from);
        for (int row = 0; row < count; row++) {
            Words.put64(instance.bytes, VALUES + 8 * row - State.BASE, values[from + row]);
        }
        return count;
    }

    int put(LocalDate[] dates, int from) {
        int count = Math.min(MOST_ROWS, dates.length - from);
        for (int row = 0; row < count; row++) {
            LocalDate date = dates[from + row];
            putPresence(row, date != null);
            if (date != null) {
                int at = VALUES + 12 * row - State.BASE;
                Words.put32(instance.bytes, at, date.getYear());
                Words.put32(instance.bytes, at + 4, date.getMonthValue());
                Words.put32(instance.bytes, at + 8, date.getDayOfMonth());
            }
        }
        return count;
    }

    int put(CharSequence[] texts, int from) {
        long units = 0;
        int count = 0;
        while (from + count < texts.length && count < MOST_ROWS && units < MOST_UNITS) {
            CharSequence text = texts[from + count];
            units += text == null ? 0 : text.length();
            count++;
        }
        instance.reserve(BYTES - TEXT + 3 * units);
        int end = BYTES - State.BASE;
        for (int row = 0; row < count; row++) {
            CharSequence text = texts[from + row];
            putPresence(row, text != null);
            end = text == null ? end : instance.write(text, end);
            textBytes = end + State.BASE - BYTES;
            Words.put64(instance.bytes, OFFSETS + 8 * row + 8 - State.BASE, textBytes);
        }
        return count;
    }

    private void putPresence(int row, boolean isPresent) {
        int at = BITMAP + row / 8 - State.BASE;
        int bit = 1 << row % 8;
        byte[] b = instance.bytes;
        b[at] = (byte) (isPresent ? b[at] | bit : b[at] & ~bit);
    }

    // What a call has written for a row.

    int status(int row) {
        return instance.getInt(STATUSES + 4 * row);
    }

    long number(int row) {
        return instance.getLong(VALUES + 8 * row);
    }

    LocalDate date(int row) {
        int at = VALUES + 12 * row;
        return LocalDate.of(instance.getInt(at), instance.getInt(at + 4), instance.getInt(at + 8));
    }

    String text(int row) {
        int first = BYTES - State.BASE;
        int at = OFFSETS + 8 * row;
        return instance.text(first + instance.getInt(at), first + instance.getInt(at + 8));
    }
}
