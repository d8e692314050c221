// Made by bindings/codes.py.
package chinesenumber;

/** How a number is read or written: as plain digits, 一二三, or with units, 一百二十三, by one of four
 * methods. {@link Way#ANY} is the one to use. It reads a text as {@link Way#DIGITS} if all of it
 * is digits, with or without a sign, otherwise as {@link Way#TEN_THOUSAND}. It can read back
 * what it writes: in simplified script below 10^16 it writes as {@link Way#MIDDLE}, so that
 * 10^12 is 一万亿, and otherwise as {@link Way#TEN_THOUSAND}. {@link Way#TEN_THOUSAND} writes 10^12
 * as 兆, as in Taiwan; {@link Way#MIDDLE} and {@link Way#HIGH} write it as 萬億, as on the
 * mainland. */
public enum Way {
    /** As plain digits: 一二三 is 123. */
    DIGITS,
    /** Each unit is ten times the one before: 億 is 10^5. */
    LOW,
    /** After 萬 each unit is 10^4 times the one before: 億 is 10^8, 兆 is 10^12. */
    TEN_THOUSAND,
    /** After 億 each unit is 10^8 times the one before: 兆 is 10^16, 京 is 10^24. */
    MIDDLE,
    /** From 億 on each unit is the square of the one before: 兆 is 10^16, 京 is 10^32. */
    HIGH,
    /** Chooses by the text, or by the script and the number. */
    ANY,
}
