package chinesenumber;

import static chinesenumber.Instance.LENGTH;
import static chinesenumber.Instance.RESULT;
import static chinesenumber.Instance.SPANS;
import static chinesenumber.Instance.TEXT;
import static java.util.Objects.requireNonNull;

import java.math.BigDecimal;
import java.math.BigInteger;
import java.math.RoundingMode;
import java.time.LocalDate;
import java.util.Arrays;
import java.util.HashSet;
import java.util.Locale;
import java.util.Optional;
import java.util.Set;
import java.util.function.Function;
import java.util.function.Supplier;
import java.util.stream.Stream;

/**
 * Reads, writes, finds and replaces Chinese numerals, amounts of money, dates, quantities and
 * phrases, by a proved library.
 *
 * <pre>{@code
 * toNumber("一百二")                                        120
 * toChinese(120, Style.DEFAULT.withCase(Case.UPPER))       壹佰贰拾
 * yuanToChinese(new BigDecimal("1409.50"))                 壹仟肆佰零玖元伍角整
 * chineseToDate("贰零贰陆年零壹月壹拾伍日")                  2026-01-15
 * toQuantity("3.5万").toFigures()                          35000
 * textToFigures("一月五日下午三点半")                       1月5日下午3点半
 * inputMessage("壹佰贰元整", Input.AMOUNT, Locale.CHINA)     第3个字“贰”前缺“零”。
 * }</pre>
 *
 * <p>Any number of threads may call at once. No argument and no result is null; a null argument is
 * refused by a {@link NullPointerException} that names it. What cannot be read or written is
 * refused by a {@link ChineseNumberException}. An unpaired surrogate is a character that is in no
 * numeral. A text of more than about 700 million {@code char}s is refused by an {@link
 * IllegalArgumentException}.
 */
public final class ChineseNumbers {
    private static final String VERSION = "0.1.0";
    private static final int MOST_PLACES = 17;
    private static final int MOST_SCALE = 100;
    /** Chinese, and Mandarin and Cantonese by their own codes. */
    private static final Set<String> CHINESE = new HashSet<>(Arrays.asList("zh", "cmn", "yue"));
    /** Where Chinese is written in traditional characters. */
    private static final Set<String> TRADITIONAL = new HashSet<>(Arrays.asList("TW", "HK", "MO"));

    private ChineseNumbers() {}

    /** The version of the library: {@code version()} is 0.1.0. */
    public static String version() {
        return VERSION;
    }

    // Numbers.

    /**
     * Reads a numeral: {@code toNumber("一百二")} is 120.
     *
     * @throws ChineseNumberException if the text is no numeral, or a {@code long} does not hold its
     *     number
     */
    public static long toNumber(CharSequence text) {
        return toNumber(text, Way.ANY);
    }

    /**
     * Reads a numeral by a way: {@code toNumber("一二〇", Way.DIGITS)} is 120.
     *
     * @throws ChineseNumberException if the text is no numeral by this way, or a {@code long} does
     *     not hold its number
     */
    public static long toNumber(CharSequence text, Way way) {
        Instance instance = read(text, way, Kind.I64);
        long number = instance.getLong(RESULT);
        instance.release();
        return number;
    }

    /**
     * Reads a numeral of up to 128 bits: {@code toBigInteger("一京")} is 10000000000000000.
     *
     * @throws ChineseNumberException if the text is no numeral, or its number has more bits
     */
    public static BigInteger toBigInteger(CharSequence text) {
        return toBigInteger(text, Way.ANY);
    }

    /**
     * Reads a numeral by a way: {@code toBigInteger("一兆", Way.MIDDLE)} is 10000000000000000.
     *
     * @throws ChineseNumberException if the text is no numeral by this way, or its number has more
     *     than 128 bits
     */
    public static BigInteger toBigInteger(CharSequence text, Way way) {
        return toBigInteger(text, way, Kind.I128);
    }

    /**
     * Reads a numeral whose number fits an integer type: {@code toBigInteger("一百二", Way.ANY,
     * Kind.U8)} is 120.
     *
     * @throws ChineseNumberException if the text is no numeral, or its number does not fit
     */
    public static BigInteger toBigInteger(CharSequence text, Way way, Kind kind) {
        Instance instance = read(text, way, kind);
        BigInteger number = instance.getInteger(RESULT, isSigned(kind));
        instance.release();
        return number;
    }

    private static Instance read(CharSequence text, Way way, Kind kind) {
        int wayCode = requireNonNull(way, "way").ordinal();
        int kindCode = requireNonNull(kind, "kind").ordinal();
        Instance instance = Instance.with(text);
        int status = Core.chinese_number_read_utf8(instance, TEXT, instance.textBytes, kindCode,
            wayCode, RESULT);
        if (status != 0) {
            throw instance.refusal(status, ReadText.of(text, way, kind), RESULT + 16);
        }
        return instance;
    }

    private static boolean isSigned(Kind kind) {
        return kind.compareTo(Kind.I8) >= 0;
    }

    /** Writes a number: {@code toChinese(120)} is 一百二十. */
    public static String toChinese(long number) {
        return toChinese(number, Style.DEFAULT);
    }

    /**
     * Writes a number in a style: {@code toChinese(105000,
     * Style.DEFAULT.withScript(Script.TRADITIONAL))} is 十萬五千.
     *
     * @throws ChineseNumberException if {@link Way#LOW} cannot write the number
     */
    public static String toChinese(long number, Style style) {
        return print(number, number >> 63, Kind.I64, style);
    }

    /**
     * Writes a number of up to 128 bits: {@code toChinese(BigInteger.TEN.pow(12))} is 一万亿.
     *
     * @throws ChineseNumberException if the number has more bits
     */
    public static String toChinese(BigInteger number) {
        return toChinese(number, Style.DEFAULT);
    }

    /**
     * Writes a number of up to 128 bits in a style: {@code toChinese(BigInteger.TEN.pow(12),
     * Style.DEFAULT.withScript(Script.TRADITIONAL))} is 一兆.
     *
     * @throws ChineseNumberException if the number has more bits, or {@link Way#LOW} cannot write
     *     it
     */
    public static String toChinese(BigInteger number, Style style) {
        return toChinese(number, style, Kind.I128);
    }

    /**
     * Writes a number that an integer type holds: {@code toChinese(BigInteger.valueOf(120),
     * Style.DEFAULT, Kind.U8)} is 一百二十.
     *
     * @throws ChineseNumberException if the type does not hold the number, or {@link Way#LOW}
     *     cannot write it
     */
    public static String toChinese(BigInteger number, Style style, Kind kind) {
        requireNonNull(kind, "kind");
        requireFits(requireNonNull(number, "number"), kind);
        return print(number.longValue(), number.shiftRight(64).longValue(), kind, style);
    }

    /** The number, if it fits the 128 bits in which the module takes one of a type. */
    static BigInteger requireFits(BigInteger number, Kind kind) {
        boolean fits = isSigned(kind)
            ? number.bitLength() < 128 : number.signum() >= 0 && number.bitLength() <= 128;
        if (!fits) {
            throw doesNotFit(kind);
        }
        return number;
    }

    static ChineseNumberException doesNotFit(Kind kind) {
        String text = kind.name().toLowerCase(Locale.ROOT) + " does not hold the number";
        return new ChineseNumberException(Status.NOT_HELD, text);
    }

    private static String print(long low, long high, Kind kind, Style style) {
        requireNonNull(style, "style");
        Instance instance = Instance.acquire();
        int status = Core.chinese_number_print(instance, low, high, kind.ordinal(),
            style.way.ordinal(), style.script.ordinal(), style.letterCase.ordinal(), TEXT,
            Codes.MOST_BYTES, LENGTH);
        if (status == Status.NOT_HELD.ordinal()) {
            instance.release();
            throw doesNotFit(kind);
        }
        return printed(instance, status);
    }

    /** The text that was printed at {@code TEXT}. Throws if the status is a refusal. */
    static String printed(Instance instance, int code) {
        requireDone(instance, code);
        return instance.printed(TEXT);
    }

    /** Releases the instance and throws if the status of what was written is a refusal. */
    static void requireDone(Instance instance, int code) {
        if (code != 0) {
            instance.release();
            Status status = Status.values()[code];
            throw new ChineseNumberException(status, ChineseNumberException.textOf(status));
        }
    }

    // Amounts of money.

    /**
     * Writes an amount of money in capitals, as on a cheque: {@code yuanToChinese(new
     * BigDecimal("1409.50"))} is 壹仟肆佰零玖元伍角整. Nothing is rounded.
     *
     * @throws ChineseNumberException as {@link #yuanToFen(BigDecimal)} and {@link
     *     #amountToChinese(long)} do
     */
    public static String yuanToChinese(BigDecimal yuan) {
        return amountToChinese(yuanToFen(yuan));
    }

    /**
     * Writes an amount of money in a form: {@code yuanToChinese(new BigDecimal("15"),
     * AmountForm.DEFAULT.withCurrency())} is 人民币壹拾伍元整.
     *
     * @throws ChineseNumberException as {@link #yuanToChinese(BigDecimal)} does
     */
    public static String yuanToChinese(BigDecimal yuan, AmountForm form) {
        return amountToChinese(yuanToFen(yuan), form);
    }

    /**
     * Writes an amount that may be negative, as on a red invoice: {@code signedYuanToChinese(new
     * BigDecimal("-15"))} is 负壹拾伍元整.
     *
     * @throws ChineseNumberException as {@link #yuanToFen(BigDecimal)} does
     */
    public static String signedYuanToChinese(BigDecimal yuan) {
        return signedAmountToChinese(yuanToFen(yuan));
    }

    /**
     * Writes an amount that may be negative in a form: {@code signedYuanToChinese(new
     * BigDecimal("-15"), AmountForm.DEFAULT.withBracketedSign())} is （负数）壹拾伍元整.
     *
     * @throws ChineseNumberException as {@link #yuanToFen(BigDecimal)} does
     */
    public static String signedYuanToChinese(BigDecimal yuan, AmountForm form) {
        return signedAmountToChinese(yuanToFen(yuan), form);
    }

    /**
     * Writes an amount of fen, hundredths of a yuan: {@code amountToChinese(1500)} is 壹拾伍元整.
     *
     * @throws ChineseNumberException if the amount is below zero, or 10^18 fen or more
     */
    public static String amountToChinese(long fen) {
        return amountToChinese(fen, AmountForm.DEFAULT);
    }

    /**
     * Writes an amount of fen in a form: {@code amountToChinese(1500,
     * AmountForm.DEFAULT.withUprightClosing())} is 壹拾伍元正.
     *
     * @throws ChineseNumberException if the amount is below zero, or 10^18 fen or more
     */
    public static String amountToChinese(long fen, AmountForm form) {
        requireNonNull(form, "form");
        if (fen < 0) {
            throw new ChineseNumberException(Status.TOO_SMALL,
                Codes.TOO_SMALL_TEXT + ": the calls for signed amounts write those below zero");
        }
        Instance instance = Instance.acquire();
        int status = Core.chinese_amount_print(instance, fen, form.script.ordinal(), form.flags,
            TEXT, Codes.MOST_AMOUNT_BYTES, LENGTH);
        return printed(instance, status);
    }

    /**
     * Writes an amount of fen that may be negative: {@code signedAmountToChinese(-1500)} is 负壹拾伍元整.
     *
     * @throws ChineseNumberException if the amount is 10^18 fen or more, or -10^18 or less
     */
    public static String signedAmountToChinese(long fen) {
        return signedAmountToChinese(fen, AmountForm.DEFAULT);
    }

    /**
     * Writes an amount of fen that may be negative in a form: {@code signedAmountToChinese(-1500,
     * AmountForm.DEFAULT.withScript(Script.TRADITIONAL))} is 負壹拾伍元整.
     *
     * @throws ChineseNumberException if the amount is 10^18 fen or more, or -10^18 or less
     */
    public static String signedAmountToChinese(long fen, AmountForm form) {
        requireNonNull(form, "form");
        Instance instance = Instance.acquire();
        int status = Core.chinese_signed_amount_print(instance, fen, form.script.ordinal(),
            form.flags, TEXT, Codes.MOST_SIGNED_AMOUNT_BYTES, LENGTH);
        return printed(instance, status);
    }

    /**
     * Reads an amount of money in capitals, in fen: {@code chineseToAmount("壹拾伍元整")} is 1500.
     * {@link #chineseToYuan} reads it in yuan.
     *
     * @throws ChineseNumberException if the text is no amount; white space is refused like any
     *     other character
     */
    public static long chineseToAmount(CharSequence text) {
        return readFen(Core::chinese_amount_read, text, Input.AMOUNT);
    }

    /**
     * Reads an amount that may be negative: {@code chineseToSignedAmount("负壹拾伍元整")} is -1500.
     *
     * @throws ChineseNumberException if the text is no such amount
     */
    public static long chineseToSignedAmount(CharSequence text) {
        return readFen(Core::chinese_signed_amount_read, text, Input.SIGNED_AMOUNT);
    }

    /**
     * Reads an amount as people type it, with white space, ⊗ or a colon after 人民币: {@code
     * chineseToAmountAsTyped("⊗ 人民币：壹拾 伍元整")} is 1500.
     *
     * @throws ChineseNumberException if the text is no such amount
     */
    public static long chineseToAmountAsTyped(CharSequence text) {
        return readFen(Core::chinese_typed_amount_read, text, Input.TYPED_AMOUNT);
    }

    /**
     * Reads an amount that may be negative, as people type it or copy it from an invoice: {@code
     * chineseToSignedAmountAsTyped("⊗（负数）壹拾伍元整")} is -1500.
     *
     * @throws ChineseNumberException if the text is no such amount
     */
    public static long chineseToSignedAmountAsTyped(CharSequence text) {
        return readFen(Core::chinese_typed_signed_amount_read, text, Input.TYPED_SIGNED_AMOUNT);
    }

    /**
     * Reads an amount of money in capitals, in yuan: {@code chineseToYuan("壹拾伍元伍角")} is 15.50.
     *
     * @throws ChineseNumberException as {@link #chineseToAmount} does
     */
    public static BigDecimal chineseToYuan(CharSequence text) {
        return fenToYuan(chineseToAmount(text));
    }

    /**
     * Reads an amount that may be negative, in yuan: {@code chineseToSignedYuan("负壹拾伍元整")} is
     * -15.00.
     *
     * @throws ChineseNumberException as {@link #chineseToSignedAmount} does
     */
    public static BigDecimal chineseToSignedYuan(CharSequence text) {
        return fenToYuan(chineseToSignedAmount(text));
    }

    /**
     * Reads an amount as people type it, in yuan: {@code chineseToYuanAsTyped("⊗ 人民币：壹拾 伍元整")} is
     * 15.00.
     *
     * @throws ChineseNumberException as {@link #chineseToAmountAsTyped} does
     */
    public static BigDecimal chineseToYuanAsTyped(CharSequence text) {
        return fenToYuan(chineseToAmountAsTyped(text));
    }

    /**
     * Reads an amount that may be negative, as people type it or copy it from an invoice, in yuan:
     * {@code chineseToSignedYuanAsTyped("⊗（负数）壹拾伍元整")} is -15.00.
     *
     * @throws ChineseNumberException as {@link #chineseToSignedAmountAsTyped} does
     */
    public static BigDecimal chineseToSignedYuanAsTyped(CharSequence text) {
        return fenToYuan(chineseToSignedAmountAsTyped(text));
    }

    /**
     * The fen of figures in yuan, exactly: {@code yuanToFen("¥1,409.50")} is 140950.
     *
     * @throws ChineseNumberException for any other text, such as 1.005, and for 10^16 yuan or more
     *     on either side of zero
     */
    public static long yuanToFen(CharSequence text) {
        return readFen(Core::chinese_figures_read, text, Input.FIGURES);
    }

    /**
     * The fen of an amount in yuan, exactly: {@code yuanToFen(new BigDecimal("15.5"))} is 1550.
     *
     * @throws ChineseNumberException as for the same figures in a text: if the amount has parts of
     *     a fen, or is too large. The place of a refusal counts in {@code
     *     yuan.stripTrailingZeros().toPlainString()}, of which up to 100 decimals are looked at.
     */
    public static long yuanToFen(BigDecimal yuan) {
        return yuanToFen(plain(requireNonNull(yuan, "yuan")));
    }

    /**
     * The amount in plain figures. Where these could take all memory, as for 1E+1000000000 and
     * 1E-1000000000, they are those of another amount, which is refused for the same reason: one
     * that is too large, or the first decimals and a 1 after them.
     */
    private static String plain(BigDecimal yuan) {
        BigDecimal sign = BigDecimal.valueOf(yuan.signum());
        if (yuan.scale() < -MOST_SCALE) {
            return sign.scaleByPowerOfTen(MOST_PLACES).toPlainString();
        }
        BigDecimal exact = yuan.stripTrailingZeros();
        if (exact.scale() <= MOST_SCALE) {
            return exact.toPlainString();
        }
        boolean isTiny = exact.precision() < exact.scale() - MOST_SCALE;
        BigDecimal first =
            isTiny ? BigDecimal.ZERO : exact.setScale(MOST_SCALE, RoundingMode.DOWN);
        return first.add(sign.scaleByPowerOfTen(-MOST_SCALE - 1)).toPlainString();
    }

    /** The yuan of an amount in fen: {@code fenToYuan(140950)} is 1409.50. */
    public static BigDecimal fenToYuan(long fen) {
        return BigDecimal.valueOf(fen, 2);
    }

    /** A call of the module that reads an amount. */
    private interface AmountReader {
        int read(State module, long text, long textBytes, long result);
    }

    private static long readFen(AmountReader reader, CharSequence text, Input input) {
        Instance instance = Instance.with(text);
        int status = reader.read(instance, TEXT, instance.textBytes, RESULT);
        if (status != 0) {
            throw instance.refusal(status, ReadText.of(text, input), RESULT + 8);
        }
        long fen = instance.getLong(RESULT);
        instance.release();
        return fen;
    }

    // Dates.

    /**
     * Writes a date in capitals, as on a cheque: {@code dateToChinese(LocalDate.of(2026, 1, 15))}
     * is 贰零贰陆年零壹月壹拾伍日.
     *
     * @throws ChineseNumberException if the year is not from 1 to 9999
     */
    public static String dateToChinese(LocalDate date) {
        return dateToChinese(date, Script.SIMPLIFIED);
    }

    /**
     * Writes a date in a script: {@code dateToChinese(LocalDate.of(2036, 2, 3),
     * Script.TRADITIONAL)} is 貳零參陸年零貳月零參日.
     *
     * @throws ChineseNumberException if the year is not from 1 to 9999
     */
    public static String dateToChinese(LocalDate date, Script script) {
        requireNonNull(date, "date");
        int code = requireNonNull(script, "script").ordinal();
        Instance instance = Instance.acquire();
        int status = Core.chinese_date_print(instance, date.getYear(), date.getMonthValue(),
            date.getDayOfMonth(), code, TEXT, Codes.MOST_DATE_BYTES, LENGTH);
        return printed(instance, status);
    }

    /**
     * Reads a date in capitals: {@code chineseToDate("贰零贰陆年零壹月壹拾伍日")} is 2026-01-15.
     *
     * @throws ChineseNumberException if the text is no date
     */
    public static LocalDate chineseToDate(CharSequence text) {
        Instance instance = Instance.with(text);
        int status = Core.chinese_date_read(instance, TEXT, instance.textBytes, RESULT);
        if (status != 0) {
            throw instance.refusal(status, ReadText.of(text, Input.DATE), RESULT + 16);
        }
        int year = instance.getInt(RESULT);
        int month = instance.getInt(RESULT + 4);
        LocalDate date = LocalDate.of(year, month, instance.getInt(RESULT + 8));
        instance.release();
        return date;
    }

    // Quantities.

    /**
     * Reads an exact quantity: {@code toQuantity("三分之一")} is 1/3. It is the call for text that
     * people type.
     *
     * @throws ChineseNumberException if the text is no quantity, or its numbers are too large
     */
    public static Quantity toQuantity(CharSequence text) {
        return toQuantity(text, Way.ANY);
    }

    /**
     * Reads an exact quantity by a method, which is not {@link Way#DIGITS}: {@code toQuantity("一兆",
     * Way.MIDDLE)} is 10000000000000000.
     *
     * @throws ChineseNumberException if the text is no quantity by this method, or its numbers are
     *     too large
     * @throws IllegalArgumentException for {@link Way#DIGITS}
     */
    public static Quantity toQuantity(CharSequence text, Way method) {
        int code = method(method).ordinal();
        Instance instance = Instance.with(text);
        int status = Core.chinese_quantity_read(instance, TEXT, instance.textBytes, code, RESULT);
        if (status != 0) {
            throw instance.refusal(status, ReadText.of(text, method), RESULT + 40);
        }
        Quantity quantity = instance.getQuantity(RESULT);
        instance.release();
        return quantity;
    }

    /** The way, unless it is none by which quantities are read and written. */
    static Way method(Way method) {
        if (requireNonNull(method, "method") == Way.DIGITS) {
            throw new IllegalArgumentException("DIGITS is no method of quantities");
        }
        return method;
    }

    // Finding numbers, quantities and phrases in a text.

    /**
     * Finds the numbers of a text: {@code
     * findNumbers("第二十三回").map(FoundNumber::number).findFirst().get()} is 23. Sentences are not
     * understood: 一起 contains a 1, and 3.5万 is two numbers. The call itself searches the whole
     * text.
     */
    public static Stream<FoundNumber> findNumbers(CharSequence text) {
        return findNumbers(text, Wanted.DEFAULT);
    }

    /**
     * Finds the numbers of a text that have the wanted characters: {@code findNumbers("壹佰",
     * Wanted.DEFAULT.withUpper()).count()} is 1.
     */
    public static Stream<FoundNumber> findNumbers(CharSequence text, Wanted wanted) {
        return Search.NUMBERS.findAll(text, wanted).stream();
    }

    /**
     * Finds the expressions of a text, numbers with their sign, figures, point and units,
     * percentages and fractions: {@code findQuantities("占12.5%，共3.5万").count()} is 2.
     */
    public static Stream<FoundQuantity> findQuantities(CharSequence text) {
        return findQuantities(text, Wanted.DEFAULT);
    }

    /**
     * Finds the expressions of a text that have the wanted characters: {@code findQuantities("一京",
     * Wanted.DEFAULT.withGreatest(NumeralUnit.JING)).count()} is 1.
     */
    public static Stream<FoundQuantity> findQuantities(CharSequence text, Wanted wanted) {
        return Search.QUANTITIES.findAll(text, wanted).stream();
    }

    /**
     * Finds the phrases of a text, each a {@link Phrase}, and its expressions that are in none,
     * each a {@link FoundQuantity}: {@code findPhrases("一月五日下午三点半，二十人").count()} is 3. Of the
     * second of these {@code value(LocalTime.class)} has the time 15:30.
     */
    public static Stream<Found> findPhrases(CharSequence text) {
        return findPhrases(text, Wanted.DEFAULT);
    }

    /**
     * Finds the phrases of a text that have the wanted characters, and its other expressions:
     * {@code findPhrases("三到五万元", Wanted.DEFAULT).count()} is 1.
     */
    public static Stream<Found> findPhrases(CharSequence text, Wanted wanted) {
        return Search.PHRASES.findAll(text, wanted).stream();
    }

    /** What a call returns; empty if the call refuses a text. */
    static <T> Optional<T> unlessRefused(Supplier<T> call) {
        try {
            return Optional.of(call.get());
        } catch (ChineseNumberException refused) {
            return Optional.empty();
        }
    }

    // Rewriting texts.

    /**
     * Rewrites a text in figures, as an editor does, with its dates, times, ranges and other
     * phrases: {@code textToFigures("一月五日下午三点半，三到五万元")} is 1月5日下午3点半，3万到5万元.
     */
    public static String textToFigures(CharSequence text) {
        return textToFigures(text, TextOptions.DEFAULT);
    }

    /**
     * Rewrites a text in figures with options: {@code textToFigures("下午三点半",
     * TextOptions.DEFAULT.withCompact())} is 15:30. Phrases without a value stay, and doubtful ones
     * without that option.
     */
    public static String textToFigures(CharSequence text, TextOptions options) {
        requireNonNull(options, "options");
        return Figures.written(Core::chinese_text_to_figures, text, options);
    }

    /**
     * Rewrites a text as it is spoken, with its figures, signs and measures in Chinese characters:
     * {@code textToSpeech("15:30到，共2.5kg")} is 十五点三十分到，共二点五千克. What no rule covers stays, such
     * as x86.
     */
    public static String textToSpeech(CharSequence text) {
        return textToSpeech(text, Voice.DEFAULT);
    }

    /**
     * Rewrites a text as it is spoken by a voice: {@code textToSpeech("请拨打110",
     * Voice.DEFAULT.withYao())} is 请拨打幺幺零.
     */
    public static String textToSpeech(CharSequence text, Voice voice) {
        return Figures.spoken(text, requireNonNull(voice, "voice"));
    }

    /**
     * Finds the parts with figures that {@link #textToSpeech(CharSequence)} leaves as they are; not
     * all of them are quantities: {@code findUnspoken("2026.1.15，x86").count()} is 2.
     */
    public static Stream<FoundQuantity> findUnspoken(CharSequence text) {
        return Search.UNSPOKEN.findAll(text, Wanted.DEFAULT).stream();
    }

    /**
     * Rewrites the numerals of a text in figures, but no dates and times: {@code
     * quantitiesToFigures("市值三点五亿元，占百分之十二点五")} is 市值3.5亿元，占12.5%.
     */
    public static String quantitiesToFigures(CharSequence text) {
        return quantitiesToFigures(text, TextOptions.DEFAULT);
    }

    /**
     * Rewrites the numerals of a text in figures with options: {@code quantitiesToFigures("三千五百亿",
     * TextOptions.DEFAULT.withExpanded())} is 350000000000.
     *
     * @throws IllegalArgumentException for the options {@link TextOptions#withCompact} and {@link
     *     TextOptions#withCodes}
     */
    public static String quantitiesToFigures(CharSequence text, TextOptions options) {
        int others = Codes.COMPACT | Codes.CODES;
        requireNonNull(options, "options").refuse(others, "quantitiesToFigures");
        return Figures.written(Core::chinese_quantities_to_figures, text, options);
    }

    /**
     * Replaces the expressions of a text by texts of a function: {@code replaceQuantities("占12.5%",
     * it -> it.quantity().toChinese())} is 占百分之十二点五.
     */
    public static String replaceQuantities(CharSequence text,
        Function<? super FoundQuantity, String> replacement) {
        return replaceQuantities(text, replacement, TextOptions.DEFAULT);
    }

    /**
     * Replaces the expressions of a text that the options include and the method reads: {@code
     * replaceQuantities("三百多", it -> "300", TextOptions.DEFAULT.withAbout())} is 300多. To keep an
     * expression, the function returns its {@link Found#text}.
     *
     * @throws IllegalArgumentException for the options {@link TextOptions#withExpanded}, {@link
     *     TextOptions#withCanonical}, {@link TextOptions#withCompact} and {@link
     *     TextOptions#withCodes}
     * @throws NullPointerException also if the function returns null
     */
    public static String replaceQuantities(CharSequence text,
        Function<? super FoundQuantity, String> replacement, TextOptions options) {
        requireNonNull(replacement, "replacement");
        int others = Codes.EXPANDED | Codes.CANONICAL | Codes.COMPACT | Codes.CODES;
        requireNonNull(options, "options").refuse(others, "replaceQuantities");
        StringBuilder replaced = new StringBuilder();
        int end = 0;
        for (FoundQuantity found : Search.QUANTITIES.findAll(text, options.wanted)) {
            if (options.include(found) && isRead(found, options.method)) {
                String other = replacement.apply(found);
                requireNonNull(other, "the text that replacement returned");
                replaced.append(text, end, found.start()).append(other);
                end = found.end();
            }
        }
        return replaced.append(text, end, text.length()).toString();
    }

    private static boolean isRead(FoundQuantity found, Way method) {
        return unlessRefused(() -> found.quantity(method)).isPresent();
    }

    // Help with a text that is refused.

    /**
     * Says what may come next in a text, for example to offer keys: {@code inputExpected("壹佰",
     * Input.AMOUNT).characters().contains("元")} is true.
     */
    public static Expected inputExpected(CharSequence text, Input input) {
        int code = requireNonNull(input, "input").ordinal();
        Instance instance = Instance.with(text);
        Core.chinese_input_expected(instance, TEXT, instance.textBytes, code, SPANS);
        Expected expected = new Expected(instance, SPANS);
        instance.release();
        return expected;
    }

    /**
     * Finds one change of a text that makes its wrong character right: {@code
     * inputRepair("壹佰贰元整", Input.AMOUNT).get().character()} is 零. Empty if the text is right, or if
     * no change is found. Only a person can say whether the change is what was meant.
     */
    public static Optional<Repair> inputRepair(CharSequence text, Input input) {
        int code = requireNonNull(input, "input").ordinal();
        Instance instance = Instance.with(text);
        Core.chinese_input_repair(instance, TEXT, instance.textBytes, code, RESULT);
        boolean isKnown = instance.getInt(RESULT + 16) != 0;
        Repair repair = isKnown ? new Repair(instance, RESULT) : null;
        instance.release();
        return Optional.ofNullable(repair);
    }

    /**
     * Says why {@link #toBigInteger(CharSequence)} refuses a text: {@code
     * explainNumber("一百十").get()} is UNITS. Empty if it reads the text.
     */
    public static Optional<Fault> explainNumber(CharSequence text) {
        return explainNumber(text, Way.ANY, Kind.I128);
    }

    /**
     * Says why {@link #toBigInteger(CharSequence, Way, Kind)} refuses a text: {@code
     * explainNumber("三百", Way.ANY, Kind.U8).get()} is TOO_LARGE. Empty if it reads the text.
     */
    public static Optional<Fault> explainNumber(CharSequence text, Way way, Kind kind) {
        int wayCode = requireNonNull(way, "way").ordinal();
        int kindCode = requireNonNull(kind, "kind").ordinal();
        Instance instance = Instance.with(text);
        Core.chinese_number_explain(instance, TEXT, instance.textBytes, kindCode, wayCode, RESULT);
        return fault(instance);
    }

    /**
     * Says why {@link #toQuantity(CharSequence)} refuses a text: {@code
     * explainQuantity("零分之一").get()} is DENOMINATOR. Empty if it reads the text.
     */
    public static Optional<Fault> explainQuantity(CharSequence text) {
        return explainQuantity(text, Way.ANY);
    }

    /**
     * Says why {@link #toQuantity(CharSequence, Way)} refuses a text: {@code
     * explainQuantity("一百五万", Way.TEN_THOUSAND).get()} is TWO_READINGS. Empty if it reads the text.
     *
     * @throws IllegalArgumentException for {@link Way#DIGITS}
     */
    public static Optional<Fault> explainQuantity(CharSequence text, Way method) {
        int code = method(method).ordinal();
        Instance instance = Instance.with(text);
        Core.chinese_quantity_explain(instance, TEXT, instance.textBytes, code, RESULT);
        return fault(instance);
    }

    private static Optional<Fault> fault(Instance instance) {
        int code = instance.getInt(RESULT);
        instance.release();
        return code == 0 ? Optional.empty() : Optional.of(Fault.values()[code - 1]);
    }

    // Messages for a person.

    /**
     * The message for the person who typed a text, for example an amount: why it is refused, with a
     * repair if one is found. {@code inputMessage("壹佰贰元整", Input.AMOUNT, Locale.CHINA)} is
     * 第3个字“贰”前缺“零”。 It is empty if the text is right.
     *
     * <p>The languages {@code zh}, {@code cmn} and {@code yue} have messages in Chinese, any other
     * in English. Traditional characters are those of the script {@code Hant} and, where the locale
     * names neither {@code Hant} nor {@code Hans}, of the countries TW, HK and MO, and of {@code
     * yue} except in CN.
     */
    public static String inputMessage(CharSequence text, Input input, Locale locale) {
        int inputCode = requireNonNull(input, "input").ordinal();
        int language = language(locale);
        return message(text, (instance, buffer) -> Core.chinese_input_message(instance, TEXT,
            instance.textBytes, inputCode, language, buffer, Codes.MOST_MESSAGE_BYTES, LENGTH));
    }

    /**
     * The message for a text that {@link #toBigInteger(CharSequence)} refuses, likewise: {@code
     * numberMessage("", Locale.CHINA)} is 缺少数字。
     */
    public static String numberMessage(CharSequence text, Locale locale) {
        return numberMessage(text, locale, Way.ANY, Kind.I128);
    }

    /**
     * The message for a text that {@link #toBigInteger(CharSequence, Way, Kind)} refuses, likewise:
     * {@code numberMessage("二百五十六", Locale.CHINA, Way.ANY, Kind.U8)} is 数值太大。
     */
    public static String numberMessage(CharSequence text, Locale locale, Way way, Kind kind) {
        int wayCode = requireNonNull(way, "way").ordinal();
        int kindCode = requireNonNull(kind, "kind").ordinal();
        int language = language(locale);
        return message(text, (instance, buffer) -> Core.chinese_number_message(instance, TEXT,
            instance.textBytes, kindCode, wayCode, language, buffer, Codes.MOST_MESSAGE_BYTES,
            LENGTH));
    }

    /**
     * The message for a text that {@link #toQuantity(CharSequence)} refuses, likewise: {@code
     * quantityMessage("", Locale.CHINA)} is 缺少数字。
     */
    public static String quantityMessage(CharSequence text, Locale locale) {
        return quantityMessage(text, locale, Way.ANY);
    }

    /**
     * The message for a text that {@link #toQuantity(CharSequence, Way)} refuses, likewise: {@code
     * quantityMessage("", Locale.TAIWAN, Way.MIDDLE)} is 缺少數字。
     *
     * @throws IllegalArgumentException for {@link Way#DIGITS}
     */
    public static String quantityMessage(CharSequence text, Locale locale, Way method) {
        int methodCode = method(method).ordinal();
        int language = language(locale);
        return message(text, (instance, buffer) -> Core.chinese_quantity_message(instance, TEXT,
            instance.textBytes, methodCode, language, buffer, Codes.MOST_MESSAGE_BYTES, LENGTH));
    }

    /** A call of the module that writes a message on a text at an address. */
    private interface MessageWriter {
        int write(Instance instance, int buffer);
    }

    private static String message(CharSequence text, MessageWriter writer) {
        Instance instance = Instance.with(text, Codes.MOST_MESSAGE_BYTES);
        writer.write(instance, instance.buffer());
        return instance.printed(instance.buffer());
    }

    /**
     * What a status means, for example for a person whose number is too large to be written: {@code
     * statusMessage(Status.TOO_LARGE, Locale.CHINA)} is 数值太大。 Empty for {@link Status#DONE}.
     */
    public static String statusMessage(Status status, Locale locale) {
        int code = requireNonNull(status, "status").ordinal();
        int language = language(locale);
        Instance instance = Instance.acquire();
        Core.chinese_status_message(instance, code, language, TEXT, Codes.MOST_MESSAGE_BYTES,
            LENGTH);
        return instance.printed(TEXT);
    }

    /** The code of the language for a locale. */
    private static int language(Locale locale) {
        String name = requireNonNull(locale, "locale").getLanguage();
        if (!CHINESE.contains(name)) {
            return Language.ENGLISH.ordinal();
        }
        String script = locale.getScript();
        String country = locale.getCountry();
        boolean isUsual =
            name.equals("yue") ? !country.equals("CN") : TRADITIONAL.contains(country);
        boolean isTraditional = script.equals("Hant") || isUsual && !script.equals("Hans");
        Language chinese =
            isTraditional ? Language.TRADITIONAL_CHINESE : Language.SIMPLIFIED_CHINESE;
        return chinese.ordinal();
    }

    // Lines.

    /**
     * Answers a line as the program {@code numeral} does: {@code answerLine("print u8 naive simple
     * lower 12")} is {@code ok 一二}. What is no question has the answer {@code bad line}. The page
     * docs/RULES.md of the repository defines questions and answers.
     */
    public static String answerLine(CharSequence line) {
        Instance instance = Instance.with(requireNonNull(line, "line"), Codes.MOST_ANSWER_BYTES);
        Core.chinese_number_answer_line(instance, TEXT, instance.textBytes, instance.buffer(),
            Codes.MOST_ANSWER_BYTES, LENGTH);
        return instance.printed(instance.buffer());
    }
}
