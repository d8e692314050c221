// Made by bindings/codes.py.
package chinesenumber;

/** What an item of a text is: an expression that is in no phrase, or a phrase of a kind. What is
 * in brackets are the numbers first, second, third and fourth of a phrase, where a language has
 * no type of its own for its value. */
public enum PhraseKind {
    /** An expression in no phrase. */
    EXPRESSION,
    /** A date or a part of one (the year, the month, the day). */
    DATE,
    /** From a year to another one. */
    YEARS,
    /** From a month to another one of the same year. */
    MONTHS,
    /** From a day to another one of the same month. */
    DAYS,
    /** A time of day (the hour as it is written, the minute, the second, the hour of 24). */
    TIME,
    /** A duration (hours, minutes and seconds). */
    DURATION,
    /** A number and a half, as 一个半小时 (the number without the half). */
    HALF,
    /** A number with decimals, as 一米七五 (the number, the decimals, how many decimals there are). */
    LENGTH,
    /** Two numbers that are compared. */
    SCORE,
    /** From a quantity to another one. */
    RANGE,
    /** A sum of money, as 三块五: the fen by their lower and their upper 32 bits, and 1; all 0 if
     * they are no whole number below 10^18. */
    MONEY,
}
