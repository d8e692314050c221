package chinesenumber;

import static chinesenumber.ColumnMemory.BITMAP;
import static chinesenumber.ColumnMemory.BITMAP_BYTES;
import static chinesenumber.ColumnMemory.BYTES;
import static chinesenumber.ColumnMemory.MOST_BYTES;
import static chinesenumber.ColumnMemory.OFFSETS;
import static chinesenumber.ColumnMemory.STATUSES;
import static chinesenumber.ColumnMemory.VALUES;
import static chinesenumber.Instance.LENGTH;
import static java.util.Objects.requireNonNull;

import java.time.LocalDate;
import java.util.ArrayList;
import java.util.Iterator;
import java.util.List;
import java.util.Spliterator;
import java.util.Spliterators;
import java.util.function.Function;
import java.util.function.IntConsumer;
import java.util.stream.LongStream;
import java.util.stream.Stream;
import java.util.stream.StreamSupport;

/**
 * Writes and reads many numbers, amounts of money or dates, each row as the call of {@link
 * ChineseNumbers} for one.
 *
 * <pre>{@code
 * String[] texts = numbersToChinese(new long[] {120, -7});    // 一百二十, 负七
 * long[] numbers = toNumbers(texts);                          // 120, -7
 * Status[] statuses = new Status[2];
 * toNumbers(new String[] {"一百二", "二十十"}, Way.ANY, statuses);
 * statuses[1];                                                // INCORRECT
 * }</pre>
 *
 * <p>The first row that is refused, or is null, ends a call by the exception of the call for one;
 * {@link ChineseNumberException#row} is its row. A call with an array for the statuses goes on
 * instead: it writes the status of each row, {@link Status#NONE} if the row is null. The result of
 * a row whose status is not {@link Status#DONE} is null, or 0.
 *
 * <p>Streams are converted in pieces of some thousand rows, when their rows are used. For a list
 * use its {@code stream()}, or its {@code toArray}. Any number of threads may call at once.
 */
public final class ChineseColumns {
    private static final Status[] CODES = Status.values();
    private static final int ROWS_OF_STREAM = 4096;

    private ChineseColumns() {}

    // Numbers.

    /** Writes numbers: {@code numbersToChinese(new long[] {120, -7})[1]} is 负七. */
    public static String[] numbersToChinese(long[] numbers) {
        return numbersToChinese(numbers, Style.DEFAULT);
    }

    /**
     * Writes numbers in a style: {@code numbersToChinese(new long[] {105000},
     * Style.DEFAULT.withScript(Script.TRADITIONAL))[0]} is 十萬五千.
     *
     * @throws ChineseNumberException if {@link Way#LOW} cannot write a number
     */
    public static String[] numbersToChinese(long[] numbers, Style style) {
        return print(numbers, style, null);
    }

    /**
     * Writes numbers and their statuses: {@code numbersToChinese(new long[] {7}, Style.DEFAULT, new
     * Status[1])[0]} is 七.
     *
     * @throws IllegalArgumentException if there are not as many statuses as numbers
     */
    public static String[] numbersToChinese(long[] numbers, Style style, Status[] statuses) {
        return print(numbers, style, requireNonNull(statuses, "statuses"));
    }

    /**
     * Writes a stream of numbers: {@code numbersToChinese(LongStream.of(7),
     * Style.DEFAULT).findFirst().get()} is 七.
     */
    public static Stream<String> numbersToChinese(LongStream numbers, Style style) {
        requireNonNull(style, "style");
        return inPieces(requireNonNull(numbers, "numbers").boxed(),
            it -> numbersToChinese(longs(it), style)).flatMap(Stream::of);
    }

    private static String[] print(long[] numbers, Style style, Status[] statuses) {
        requireNonNull(style, "style");
        String[] texts = new String[requireNonNull(numbers, "numbers").length];
        convert(texts.length, statuses, (m, from) -> {
            int count = m.put(numbers, from);
            Core.chinese_numbers_print_column(m.instance, VALUES, count, BITMAP, 0, 0,
                Kind.I64.ordinal(), style.way.ordinal(), style.script.ordinal(),
                style.letterCase.ordinal(), OFFSETS, count + 1, BYTES, MOST_BYTES, STATUSES, count,
                LENGTH);
            return count;
        }, (m, row, to) -> texts[to] = m.text(row),
            row -> ChineseNumbers.toChinese(numbers[row], style));
        return texts;
    }

    /** Reads numerals: {@code toNumbers(new String[] {"一百二", "负七"})[1]} is -7. */
    public static long[] toNumbers(CharSequence[] texts) {
        return toNumbers(texts, Way.ANY);
    }

    /**
     * Reads numerals by a way: {@code toNumbers(new String[] {"一二〇"}, Way.DIGITS)[0]} is 120.
     *
     * @throws ChineseNumberException as {@link ChineseNumbers#toNumber(CharSequence, Way)} does
     */
    public static long[] toNumbers(CharSequence[] texts, Way way) {
        return read(texts, way, null);
    }

    /**
     * Reads numerals and writes their statuses: {@code toNumbers(new String[] {"二十十"}, Way.ANY, new
     * Status[1])[0]} is 0.
     *
     * @throws IllegalArgumentException if there are not as many statuses as texts
     */
    public static long[] toNumbers(CharSequence[] texts, Way way, Status[] statuses) {
        return read(texts, way, requireNonNull(statuses, "statuses"));
    }

    /** Reads a stream of numerals: {@code toNumbers(Stream.of("一百二"), Way.ANY).sum()} is 120. */
    public static LongStream toNumbers(Stream<? extends CharSequence> texts, Way way) {
        requireNonNull(way, "way");
        return inPieces(requireNonNull(texts, "texts"), it -> toNumbers(texts(it), way))
            .flatMapToLong(LongStream::of);
    }

    private static long[] read(CharSequence[] texts, Way way, Status[] statuses) {
        requireNonNull(way, "way");
        long[] numbers = new long[requireNonNull(texts, "texts").length];
        convert(numbers.length, statuses, (m, from) -> {
            int count = m.put(texts, from);
            Core.chinese_numbers_read_column(m.instance, BYTES, m.textBytes, OFFSETS, count + 1,
                BITMAP, BITMAP_BYTES, 0, Kind.I64.ordinal(), way.ordinal(), VALUES, count,
                STATUSES, count);
            return count;
        }, (m, row, to) -> numbers[to] = m.number(row),
            row -> ChineseNumbers.toNumber(texts[row], way));
        return numbers;
    }

    // Amounts of money.

    /**
     * Writes amounts of fen that may be negative: {@code signedAmountsToChinese(new long[]
     * {-1500})[0]} is 负壹拾伍元整.
     *
     * @throws ChineseNumberException if an amount is 10^18 fen or more, or -10^18 or less
     */
    public static String[] signedAmountsToChinese(long[] fen) {
        return signedAmountsToChinese(fen, AmountForm.DEFAULT);
    }

    /**
     * Writes amounts of fen that may be negative in a form: {@code signedAmountsToChinese(new
     * long[] {1500}, AmountForm.DEFAULT.withCurrency())[0]} is 人民币壹拾伍元整.
     *
     * @throws ChineseNumberException if an amount is 10^18 fen or more, or -10^18 or less
     */
    public static String[] signedAmountsToChinese(long[] fen, AmountForm form) {
        return print(fen, form, null);
    }

    /**
     * Writes amounts of fen and their statuses: {@code signedAmountsToChinese(new long[] {1500},
     * AmountForm.DEFAULT, new Status[1])[0]} is 壹拾伍元整.
     *
     * @throws IllegalArgumentException if there are not as many statuses as amounts
     */
    public static String[] signedAmountsToChinese(long[] fen, AmountForm form, Status[] statuses) {
        return print(fen, form, requireNonNull(statuses, "statuses"));
    }

    /**
     * Writes a stream of amounts of fen: {@code signedAmountsToChinese(LongStream.of(1500),
     * AmountForm.DEFAULT).findFirst().get()} is 壹拾伍元整.
     */
    public static Stream<String> signedAmountsToChinese(LongStream fen, AmountForm form) {
        requireNonNull(form, "form");
        return inPieces(requireNonNull(fen, "fen").boxed(),
            it -> signedAmountsToChinese(longs(it), form)).flatMap(Stream::of);
    }

    private static String[] print(long[] fen, AmountForm form, Status[] statuses) {
        requireNonNull(form, "form");
        String[] texts = new String[requireNonNull(fen, "fen").length];
        convert(texts.length, statuses, (m, from) -> {
            int count = m.put(fen, from);
            Core.chinese_amounts_print_column(m.instance, VALUES, count, BITMAP, 0, 0,
                form.script.ordinal(), form.flags, OFFSETS, count + 1, BYTES, MOST_BYTES, STATUSES,
                count, LENGTH);
            return count;
        }, (m, row, to) -> texts[to] = m.text(row),
            row -> ChineseNumbers.signedAmountToChinese(fen[row], form));
        return texts;
    }

    /**
     * Reads amounts, in fen, as the call that the input names: {@code chineseToAmounts(new String[]
     * {"壹拾伍元整"}, Input.AMOUNT)[0]} is 1500.
     *
     * @throws ChineseNumberException if a text is no such amount
     * @throws IllegalArgumentException for {@link Input#DATE}
     */
    public static long[] chineseToAmounts(CharSequence[] texts, Input input) {
        return read(texts, input, null);
    }

    /**
     * Reads amounts and writes their statuses: {@code chineseToAmounts(new String[] {"1,409.50"},
     * Input.FIGURES, new Status[1])[0]} is 140950.
     *
     * @throws IllegalArgumentException for {@link Input#DATE}, and if there are not as many
     *     statuses as texts
     */
    public static long[] chineseToAmounts(CharSequence[] texts, Input input, Status[] statuses) {
        return read(texts, input, requireNonNull(statuses, "statuses"));
    }

    /**
     * Reads a stream of amounts: {@code chineseToAmounts(Stream.of("负壹拾伍元整"),
     * Input.SIGNED_AMOUNT).sum()} is -1500.
     *
     * @throws IllegalArgumentException for {@link Input#DATE}
     */
    public static LongStream chineseToAmounts(Stream<? extends CharSequence> texts, Input input) {
        requireAmount(input);
        return inPieces(requireNonNull(texts, "texts"), it -> chineseToAmounts(texts(it), input))
            .flatMapToLong(LongStream::of);
    }

    private static long[] read(CharSequence[] texts, Input input, Status[] statuses) {
        requireAmount(input);
        long[] fen = new long[requireNonNull(texts, "texts").length];
        convert(fen.length, statuses, (m, from) -> {
            int count = m.put(texts, from);
            Core.chinese_amounts_read_column(m.instance, BYTES, m.textBytes, OFFSETS, count + 1,
                BITMAP, BITMAP_BYTES, 0, input.ordinal(), VALUES, count, STATUSES, count);
            return count;
        }, (m, row, to) -> fen[to] = m.number(row), row -> readAlone(texts[row], input));
        return fen;
    }

    private static void requireAmount(Input input) {
        if (requireNonNull(input, "input") == Input.DATE) {
            throw new IllegalArgumentException("DATE is no amount");
        }
    }

    private static long readAlone(CharSequence text, Input input) {
        switch (input) {
            case AMOUNT:
                return ChineseNumbers.chineseToAmount(text);
            case SIGNED_AMOUNT:
                return ChineseNumbers.chineseToSignedAmount(text);
            case TYPED_AMOUNT:
                return ChineseNumbers.chineseToAmountAsTyped(text);
            case TYPED_SIGNED_AMOUNT:
                return ChineseNumbers.chineseToSignedAmountAsTyped(text);
            default:
                return ChineseNumbers.yuanToFen(text);
        }
    }

    // Dates.

    /**
     * Writes dates: {@code datesToChinese(new LocalDate[] {LocalDate.of(2026, 1, 15)})[0]} is
     * 贰零贰陆年零壹月壹拾伍日.
     *
     * @throws ChineseNumberException if a year is not from 1 to 9999
     */
    public static String[] datesToChinese(LocalDate[] dates) {
        return datesToChinese(dates, Script.SIMPLIFIED);
    }

    /**
     * Writes dates in a script: {@code datesToChinese(new LocalDate[] {LocalDate.of(2036, 2, 3)},
     * Script.TRADITIONAL)[0]} is 貳零參陸年零貳月零參日.
     *
     * @throws ChineseNumberException if a year is not from 1 to 9999
     */
    public static String[] datesToChinese(LocalDate[] dates, Script script) {
        return print(dates, script, null);
    }

    /**
     * Writes dates and their statuses: {@code datesToChinese(new LocalDate[] {LocalDate.MAX},
     * Script.SIMPLIFIED, new Status[1])[0]} is null.
     *
     * @throws IllegalArgumentException if there are not as many statuses as dates
     */
    public static String[] datesToChinese(LocalDate[] dates, Script script, Status[] statuses) {
        return print(dates, script, requireNonNull(statuses, "statuses"));
    }

    /**
     * Writes a stream of dates: {@code datesToChinese(Stream.of(LocalDate.of(2026, 1, 15)),
     * Script.SIMPLIFIED).findFirst().get()} is 贰零贰陆年零壹月壹拾伍日.
     */
    public static Stream<String> datesToChinese(Stream<LocalDate> dates, Script script) {
        requireNonNull(script, "script");
        return inPieces(requireNonNull(dates, "dates"),
            it -> datesToChinese(it.toArray(new LocalDate[0]), script)).flatMap(Stream::of);
    }

    private static String[] print(LocalDate[] dates, Script script, Status[] statuses) {
        int code = requireNonNull(script, "script").ordinal();
        String[] texts = new String[requireNonNull(dates, "dates").length];
        convert(texts.length, statuses, (m, from) -> {
            int count = m.put(dates, from);
            Core.chinese_dates_print_column(m.instance, VALUES, count, BITMAP, BITMAP_BYTES, 0,
                code, OFFSETS, count + 1, BYTES, MOST_BYTES, STATUSES, count, LENGTH);
            return count;
        }, (m, row, to) -> texts[to] = m.text(row),
            row -> ChineseNumbers.dateToChinese(dates[row], script));
        return texts;
    }

    /**
     * Reads dates: {@code chineseToDates(new String[] {"贰零贰陆年零壹月壹拾伍日"})[0]} is 2026-01-15.
     *
     * @throws ChineseNumberException if a text is no date
     */
    public static LocalDate[] chineseToDates(CharSequence[] texts) {
        return readDates(texts, null);
    }

    /**
     * Reads dates and writes their statuses: {@code chineseToDates(new String[] {"贰零贰陆年"}, new
     * Status[1])[0]} is null.
     *
     * @throws IllegalArgumentException if there are not as many statuses as texts
     */
    public static LocalDate[] chineseToDates(CharSequence[] texts, Status[] statuses) {
        return readDates(texts, requireNonNull(statuses, "statuses"));
    }

    /**
     * Reads a stream of dates: {@code
     * chineseToDates(Stream.of("贰零贰陆年零壹月壹拾伍日")).findFirst().get()} is 2026-01-15.
     */
    public static Stream<LocalDate> chineseToDates(Stream<? extends CharSequence> texts) {
        return inPieces(requireNonNull(texts, "texts"), it -> chineseToDates(texts(it)))
            .flatMap(Stream::of);
    }

    private static LocalDate[] readDates(CharSequence[] texts, Status[] statuses) {
        LocalDate[] dates = new LocalDate[requireNonNull(texts, "texts").length];
        convert(dates.length, statuses, (m, from) -> {
            int count = m.put(texts, from);
            Core.chinese_dates_read_column(m.instance, BYTES, m.textBytes, OFFSETS, count + 1,
                BITMAP, BITMAP_BYTES, 0, VALUES, count, STATUSES, count);
            return count;
        }, (m, row, to) -> dates[to] = m.date(row),
            row -> ChineseNumbers.chineseToDate(texts[row]));
        return dates;
    }

    // Any column.

    /** Converts the piece that begins at a row, and returns how many rows it has. */
    private interface Piece {
        int convert(ColumnMemory memory, int from);
    }

    /** Takes the result of a row of the piece to a row of the column. */
    private interface Result {
        void take(ColumnMemory memory, int row, int to);
    }

    /**
     * Converts a column. Without statuses, the call for one value or text throws the exception of
     * the first row that is refused.
     */
    private static void convert(int rows, Status[] statuses, Piece piece, Result result,
        IntConsumer alone) {
        if (statuses != null && statuses.length != rows) {
            String text = "there are " + statuses.length + " statuses for " + rows + " rows";
            throw new IllegalArgumentException(text);
        }
        ColumnMemory memory = new ColumnMemory();
        for (int from = 0, count; from < rows; from += count) {
            count = piece.convert(memory, from);
            for (int row = 0; row < count; row++) {
                int code = memory.status(row);
                if (code == 0) {
                    result.take(memory, row, from + row);
                } else if (statuses == null) {
                    memory.instance.release();
                    throw refusal(alone, from + row);
                }
                if (statuses != null) {
                    statuses[from + row] = CODES[code];
                }
            }
        }
        memory.instance.release();
    }

    private static ChineseNumberException refusal(IntConsumer alone, int row) {
        try {
            alone.accept(row);
        } catch (ChineseNumberException refusal) {
            return refusal.atRow(row);
        }
        throw new IllegalStateException("a row was refused that alone is not");
    }

    // Streams.

    private static long[] longs(List<Long> numbers) {
        return numbers.stream().mapToLong(Long::longValue).toArray();
    }

    private static CharSequence[] texts(List<? extends CharSequence> texts) {
        return texts.toArray(new CharSequence[0]);
    }

    /** The columns that a call makes of the pieces of a stream. */
    private static <T, C> Stream<C> inPieces(Stream<T> rows, Function<List<T>, C> call) {
        Iterator<T> each = rows.iterator();
        Iterator<C> columns = new Iterator<C>() {
            private long first;

            @Override
            public boolean hasNext() {
                return each.hasNext();
            }

            @Override
            public C next() {
                List<T> piece = new ArrayList<>();
                while (piece.size() < ROWS_OF_STREAM && each.hasNext()) {
                    piece.add(each.next());
                }
                try {
                    C column = call.apply(piece);
                    first += piece.size();
                    return column;
                } catch (ChineseNumberException refusal) {
                    throw refusal.atRow(first + refusal.row());
                }
            }
        };
        return StreamSupport
            .stream(Spliterators.spliteratorUnknownSize(columns, Spliterator.ORDERED), false)
            .onClose(rows::close);
    }
}
