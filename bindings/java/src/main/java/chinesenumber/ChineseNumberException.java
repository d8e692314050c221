package chinesenumber;

import java.util.Locale;
import java.util.Objects;
import java.util.Optional;

/**
 * A text could not be read, or a number, an amount, a date or a quantity could not be written.
 *
 * <pre>{@code
 * try {
 *     chineseToAmount("壹佰贰元整");
 * } catch (ChineseNumberException refusal) {
 *     refusal.status();                                  // INCORRECT
 *     refusal.charIndex();                               // 3
 *     refusal.messageIn(Locale.SIMPLIFIED_CHINESE);      // 第3个字“贰”前缺“零”。
 * }
 * }</pre>
 *
 * <p>It keeps the refused text, also when it is serialized, so that messages and repairs can be
 * composed later.
 */
public final class ChineseNumberException extends IllegalArgumentException {
    private static final long serialVersionUID = 1;

    private final Status status;
    private final int charIndex;
    private final int index;
    private final long row;
    /** Null if no text was read. */
    private final ReadText readText;

    ChineseNumberException(Status status, ReadText readText, int charIndex, int index) {
        this(status, textOf(status, readText, charIndex), readText, charIndex, index, -1);
    }

    /** The refusal of what cannot be written, or is too large to be read. */
    ChineseNumberException(Status status, String text) {
        this(status, text, null, -1, -1, -1);
    }

    private ChineseNumberException(Status status, String text, ReadText readText, int charIndex,
        int index, long row) {
        super(text);
        this.status = status;
        this.readText = readText;
        this.charIndex = charIndex;
        this.index = index;
        this.row = row;
    }

    /** The same refusal, of a row of a column. */
    ChineseNumberException atRow(long other) {
        return new ChineseNumberException(status, super.getMessage(), readText, charIndex, index,
            other);
    }

    /** The reason in English, with the place, and the row of a column. */
    @Override
    public String getMessage() {
        return row < 0 ? super.getMessage() : super.getMessage() + " in row " + row;
    }

    private static String textOf(Status status, ReadText readText, int charIndex) {
        boolean isDate = readText.input == Input.DATE;
        switch (status) {
            case EMPTY:
                return Codes.EMPTY_TEXT;
            case INCORRECT:
                String ofInput = isDate ? Codes.DATE_INCORRECT_TEXT : Codes.AMOUNT_INCORRECT_TEXT;
                String text = readText.input == null ? Codes.INCORRECT_TEXT : ofInput;
                return text + " (position: " + charIndex + ")";
            case UNFINISHED:
                return isDate ? Codes.DATE_UNFINISHED_TEXT : Codes.AMOUNT_UNFINISHED_TEXT;
            default:
                return textOf(status);
        }
    }

    static String textOf(Status status) {
        switch (status) {
            case TOO_LARGE:
                return Codes.TOO_LARGE_TEXT;
            case TOO_SMALL:
                return Codes.TOO_SMALL_TEXT;
            case NOT_A_DATE:
                return Codes.NOT_A_DATE_TEXT;
            case NOT_A_QUANTITY:
                return Codes.NOT_A_QUANTITY_TEXT;
            default:
                throw new IllegalStateException("the module has answered " + status);
        }
    }

    /** The reason: {@link Status#UNFINISHED} for 壹佰元. */
    public Status status() {
        return status;
    }

    /**
     * How many characters come before the wrong one, white space included, if the status is {@link
     * Status#INCORRECT}; otherwise -1. A character outside of the Basic Multilingual Plane counts
     * as one.
     */
    public int charIndex() {
        return charIndex;
    }

    /**
     * The index of the wrong character in the {@code CharSequence}; -1 where {@link #charIndex} is.
     */
    public int index() {
        return index;
    }

    /**
     * How many rows come before the refused one, if {@link ChineseColumns} has converted a column;
     * otherwise -1.
     */
    public long row() {
        return row;
    }

    /**
     * The message for the person who typed the text: why it is refused, and how it can be repaired
     * if a change of one character does that. If no text was read, as by {@code yuanToChinese(new
     * BigDecimal("-15"))}, it says what the status means, without a place.
     *
     * <p>The language is that of {@link ChineseNumbers#inputMessage}. The message is composed by
     * each call.
     */
    public String messageIn(Locale locale) {
        Objects.requireNonNull(locale, "locale");
        return readText == null
            ? ChineseNumbers.statusMessage(status, locale) : readText.message(locale);
    }

    /**
     * What may come next in the text, as {@link ChineseNumbers#inputExpected} says it; empty if it
     * was not read as an amount, a date or figures.
     */
    public Optional<Expected> expected() {
        return input().map(it -> ChineseNumbers.inputExpected(readText.text, it));
    }

    /**
     * A change that repairs the text, as {@link ChineseNumbers#inputRepair} finds it; empty if none
     * is found, or if the text was not read as an amount, a date or figures.
     */
    public Optional<Repair> repair() {
        return input().flatMap(it -> ChineseNumbers.inputRepair(readText.text, it));
    }

    private Optional<Input> input() {
        return readText == null ? Optional.empty() : Optional.ofNullable(readText.input);
    }

    /**
     * Why the text is no number or quantity: {@link Fault#TWO_READINGS} for 一百五万; empty if it was
     * read as something else.
     */
    public Optional<Fault> fault() {
        if (readText == null || readText.input != null) {
            return Optional.empty();
        }
        return readText.kind != null
            ? ChineseNumbers.explainNumber(readText.text, readText.way, readText.kind)
            : ChineseNumbers.explainQuantity(readText.text, readText.way);
    }
}
