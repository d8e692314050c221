// Made by bindings/codes.py.
package chinesenumber;

/** The flags, limits and texts of the library. */
final class Codes {
    private Codes() {}

    static final int CURRENCY = 1;
    static final int ROUND_YUAN = 2;
    static final int UPRIGHT_CLOSING = 4;
    static final int BRACKETED_SIGN = 8;

    static final int PLAIN_DIGITS = 1;
    static final int STANDS_ALONE = 2;
    static final int ABOUT = 4;
    static final int ONE_CHARACTER = 8;

    static final int DOUBTFUL = 16;
    static final int EXPANDED = 32;
    static final int CANONICAL = 64;
    static final int COMPACT = 128;
    static final int CODES = 256;

    static final int YAO = 1;

    static final int MOST_BYTES = 234;
    static final int MOST_QUANTITY_BYTES = 471;
    static final int MOST_FIGURES_BYTES = 80;
    static final int MOST_AMOUNT_BYTES = 117;
    static final int MOST_SIGNED_AMOUNT_BYTES = 129;
    static final int MOST_DATE_BYTES = 39;
    static final int MOST_MESSAGE_BYTES = 512;
    static final int MOST_ANSWER_BYTES = 256;

    static final String EMPTY_TEXT = "a chinese number cannot be empty";
    static final String INCORRECT_TEXT = "the chinese number is incorrect";
    static final String TOO_LARGE_TEXT = "number is too large";
    static final String TOO_SMALL_TEXT = "number is too small";
    static final String AMOUNT_UNFINISHED_TEXT = "the amount is not finished";
    static final String AMOUNT_INCORRECT_TEXT = "the amount is incorrect";
    static final String DATE_UNFINISHED_TEXT = "the date is not finished";
    static final String DATE_INCORRECT_TEXT = "the date is incorrect";
    static final String NOT_A_DATE_TEXT = "there is no such date";
    static final String NOT_A_QUANTITY_TEXT = "the denominator is 0";
}
