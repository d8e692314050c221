// Made by bindings/codes.py.
package chinesenumber;

/** The status of a call. No exception has {@link Status#DONE}, {@link Status#NOT_UTF8}, {@link
 * Status#NO_ROOM}, {@link Status#UNKNOWN} or {@link Status#NONE}. */
public enum Status {
    /** The text was read, written or searched. */
    DONE,
    /** When reading, the text is empty without white space and, for signed types, one sign. */
    EMPTY,
    /** When reading, the character at the place cannot be there; no amount, figures or date begin
     * with the text up to and including it. */
    INCORRECT,
    /** When reading, the number is above the type's maximum, or has more than 128 bits; when
     * writing with {@link Way#LOW}, the number, or one within a quantity, is 10^16 or more; when
     * writing an amount or reading figures, the amount is 10^18 fen or more. */
    TOO_LARGE,
    /** When reading, the number is below the type's minimum; when writing with {@link Way#LOW},
     * the number is -10^16 or less, or one within a negative quantity is 10^16 or more; when
     * writing an amount, it is -10^18 fen or less. */
    TOO_SMALL,
    /** When reading, finding or replacing, the bytes are not UTF-8; when finding, also: the
     * search starts neither at a character nor at the end of the text. */
    NOT_UTF8,
    /** When writing or replacing, the text has more bytes than the buffer; when reading a column,
     * the offsets of the row are not those of a text. */
    NO_ROOM,
    /** When writing, the type does not hold the number. */
    NOT_HELD,
    /** A code names no type, way, script, case, form, unit, option, input, language or status;
     * {@link Way#DIGITS} is not a method. */
    UNKNOWN,
    /** When reading an amount, figures or a date, the text is not one, but more text can make it
     * one. */
    UNFINISHED,
    /** When finding the next number or quantity, there is no further one in the text; in a
     * column, the row is missing. */
    NONE,
    /** When writing a date, the date does not exist. */
    NOT_A_DATE,
    /** When writing a quantity, the denominator is 0. */
    NOT_A_QUANTITY,
}
