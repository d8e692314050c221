import static chinesenumber.ChineseColumns.*;
import static chinesenumber.ChineseNumbers.*;

import chinesenumber.*;
import java.time.LocalDate;
import java.util.Arrays;
import java.util.Objects;
import java.util.Random;
import java.util.function.IntFunction;
import java.util.stream.LongStream;
import java.util.stream.Stream;

/** Each row of a column is what the call for one value or text answers. */
public final class Columns {
    private static final int ROWS = 700;
    private static final Random RANDOM = new Random(5);

    private static void same(Object found, Object wanted) {
        if (!Objects.equals(found, wanted)) {
            throw new AssertionError("found " + found + ", wanted " + wanted);
        }
    }

    /** A column without and with statuses, whose results are a list of objects. */
    interface Call {
        Object[] convert(int rows, Status[] statuses);
    }

    /** Compares a column with the calls for one row; a null row has no status of its own. */
    private static void compare(IntFunction<Object> one, IntFunction<Object> value, Call call,
        Object none) {
        Status[] statuses = new Status[ROWS];
        Object[] column = call.convert(ROWS, statuses);
        int first = -1;
        for (int row = 0; row < ROWS; row++) {
            Object wanted = none;
            Status status = Status.DONE;
            try {
                wanted = one.apply(row);
            } catch (ChineseNumberException refusal) {
                status = refusal.status();
                first = first < 0 ? row : first;
            } catch (NullPointerException missing) {
                status = Status.NONE;
                same(value.apply(row), null);
            }
            same(row + " " + statuses[row] + " " + column[row], row + " " + status + " " + wanted);
        }
        same(first > 0, true);
        same(Arrays.equals(call.convert(first, null), Arrays.copyOf(column, first)), true);
        int refused = first;
        ChineseNumberException wanted = refusal(() -> one.apply(refused));
        ChineseNumberException found = refusal(() -> call.convert(refused + 1, null));
        same(found.row(), (long) refused);
        same(wanted.row(), -1L);
        same(found.getMessage(), wanted.getMessage() + " in row " + refused);
        same(found.status() + " " + found.index(), wanted.status() + " " + wanted.index());
    }

    private static ChineseNumberException refusal(Runnable call) {
        try {
            call.run();
        } catch (ChineseNumberException refusal) {
            return refusal;
        }
        throw new AssertionError("a call has not been refused");
    }

    private static Object[] boxed(long[] numbers) {
        return Arrays.stream(numbers).boxed().toArray();
    }

    private static long some() {
        return RANDOM.nextLong() >> RANDOM.nextInt(64);
    }

    private static void numbers() {
        long[] numbers = LongStream.generate(Columns::some).limit(ROWS).toArray();
        for (int row = 0; row < 300; row++) {
            numbers[row] %= 10_000_000_000_000_000L;
        }
        numbers[300] = 10_000_000_000_000_000L;
        Style low = Style.DEFAULT.withWay(Way.LOW).withCase(Case.UPPER);
        compare(row -> toChinese(numbers[row], low), row -> "", (rows, statuses) -> statuses == null
            ? numbersToChinese(Arrays.copyOf(numbers, rows), low)
            : numbersToChinese(numbers, low, statuses), null);
        String[] texts = numbersToChinese(numbers);
        same(Arrays.equals(toNumbers(texts), numbers), true);
        // Texts of any length, so that pieces end early; one is null, some are refused.
        char[] zeros = new char[9000];
        Arrays.fill(zeros, '零');
        String[] others = {null, "", "二十十", "x一", "é", "\ud800", "一\ud83d\ude00",
            new String(zeros) + "五", new String(zeros) + "\ud83d\ude00"};
        for (int row = 100; row < ROWS; row += 1 + RANDOM.nextInt(9)) {
            texts[row] = others[RANDOM.nextInt(others.length)];
        }
        texts[99] = "二十十";
        compare(row -> toNumber(texts[row]), row -> texts[row], (rows, statuses) -> boxed(
            statuses == null ? toNumbers(Arrays.copyOf(texts, rows))
                : toNumbers(texts, Way.ANY, statuses)), 0L);
    }

    private static void amounts() {
        long[] fen = LongStream.generate(Columns::some).limit(ROWS).toArray();
        Arrays.fill(fen, 0, 20, -15);
        fen[20] = Long.MIN_VALUE;
        AmountForm form = AmountForm.DEFAULT.withBracketedSign();
        compare(row -> signedAmountToChinese(fen[row], form), row -> "",
            (rows, statuses) -> statuses == null
                ? signedAmountsToChinese(Arrays.copyOf(fen, rows), form)
                : signedAmountsToChinese(fen, form, statuses), null);
        String[] texts = signedAmountsToChinese(fen, form, new Status[ROWS]);
        String[] others = {"壹拾伍元整", "⊗ 壹拾 伍元整", "⊗（负数）壹拾伍元整", "负壹元整", "1,409.50",
            "壹佰贰元整", "壹佰元", ""};
        for (Input input : Input.values()) {
            if (input == Input.DATE) {
                continue;
            }
            String[] mixed = texts.clone();
            for (int row = 0; row < ROWS; row += 2) {
                mixed[row] = others[RANDOM.nextInt(others.length)];
            }
            mixed[0] = input == Input.FIGURES ? "15" : "壹拾伍元整";
            mixed[1] = "壹佰贰元整";
            compare(row -> amount(mixed[row], input), row -> mixed[row], (rows, statuses) -> boxed(
                statuses == null ? chineseToAmounts(Arrays.copyOf(mixed, rows), input)
                    : chineseToAmounts(mixed, input, statuses)), 0L);
        }
    }

    private static long amount(String text, Input input) {
        switch (input) {
            case AMOUNT:
                return chineseToAmount(text);
            case SIGNED_AMOUNT:
                return chineseToSignedAmount(text);
            case TYPED_AMOUNT:
                return chineseToAmountAsTyped(text);
            case TYPED_SIGNED_AMOUNT:
                return chineseToSignedAmountAsTyped(text);
            default:
                return yuanToFen(text);
        }
    }

    private static void dates() {
        LocalDate[] dates = new LocalDate[ROWS];
        for (int row = 0; row < ROWS; row++) {
            dates[row] = LocalDate.of(1 + row, 1, 1).plusDays(RANDOM.nextInt(4_000_000));
        }
        Arrays.fill(dates, 0, 9, LocalDate.of(2026, 1, 15));
        dates[9] = LocalDate.MIN;
        dates[300] = null;
        Script script = Script.TRADITIONAL;
        compare(row -> dateToChinese(dates[row], script), row -> dates[row],
            (rows, statuses) -> statuses == null
                ? datesToChinese(Arrays.copyOf(dates, rows), script)
                : datesToChinese(dates, script, statuses), null);
        String[] texts = datesToChinese(dates, Script.SIMPLIFIED, new Status[ROWS]);
        texts[9] = "贰零贰陆年壹月";
        compare(row -> chineseToDate(texts[row]), row -> texts[row],
            (rows, statuses) -> statuses == null ? chineseToDates(Arrays.copyOf(texts, rows))
                : chineseToDates(texts, statuses), null);
    }

    private static void streams() {
        long[] numbers = LongStream.range(0, 10_000).toArray();
        Stream<String> texts = numbersToChinese(LongStream.of(numbers), Style.DEFAULT);
        same(Arrays.equals(toNumbers(texts, Way.ANY).toArray(), numbers), true);
        texts = signedAmountsToChinese(LongStream.of(numbers), AmountForm.DEFAULT);
        same(Arrays.equals(chineseToAmounts(texts, Input.AMOUNT).toArray(), numbers), true);
        LocalDate day = LocalDate.of(2026, 1, 1);
        Stream<LocalDate> days = LongStream.of(numbers).mapToObj(day::plusDays);
        same(chineseToDates(datesToChinese(days, Script.SIMPLIFIED)).skip(9999).findFirst().get(),
            day.plusDays(9999));
        boolean[] isClosed = {false};
        Stream<String> source = Stream.generate(() -> "一").onClose(() -> isClosed[0] = true);
        try (LongStream read = toNumbers(source, Way.ANY)) {
            same(read.limit(5000).sum(), 5000L);
        }
        same(isClosed[0], true);
        Stream<String> bad = LongStream.range(0, 9000).mapToObj(it -> it == 8500 ? "二十十" : "一");
        ChineseNumberException refusal = refusal(() -> toNumbers(bad, Way.ANY).sum());
        same(refusal.row() + " " + refusal.charIndex(), "8500 1");
    }

    private static void illegal(Runnable call, String wanted) {
        try {
            call.run();
        } catch (IllegalArgumentException error) {
            same(error.getMessage(), wanted);
            return;
        }
        throw new AssertionError("not refused: " + wanted);
    }

    public static void main(String[] words) {
        numbers();
        amounts();
        dates();
        streams();
        same(numbersToChinese(new long[0]).length, 0);
        same(toNumbers(new StringBuilder[] {new StringBuilder("一")})[0], 1L);
        illegal(() -> chineseToAmounts(new String[0], Input.DATE), "DATE is no amount");
        illegal(() -> toNumbers(new String[2], Way.ANY, new Status[1]),
            "there are 1 statuses for 2 rows");
    }
}
