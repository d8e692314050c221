// Made by bindings/codes.py.
package chinesenumber;

/** Why a text is not a number or a quantity. From {@link Fault#START} on it is the rule that the
 * wrong character breaks; from {@link Fault#BARE_TEN} on, a rule of quantities alone. */
public enum Fault {
    /** The text is empty without its white space and, for signed types, one sign. */
    EMPTY,
    /** The number is above the type's maximum, or has more than 128 bits. */
    TOO_LARGE,
    /** The number is below the type's minimum. */
    TOO_SMALL,
    /** A numeral starts with a digit or 十: 百 of 百五. */
    START,
    /** It is no digit or unit: 角 of 一角. */
    CHARACTER,
    /** A digit is directly after it, in a numeral with units: 一 of 一二. */
    DIGITS,
    /** A unit that is not greater is directly after it: 百 of 一百十. */
    UNITS,
    /** No greater unit is after 個: 個 of 三個. */
    GE,
    /** The same unit is used again: 萬 of 一萬二萬. */
    GROUPS,
    /** 十 has no 一 before it: 十 of 三千零十万. */
    BARE_TEN,
    /** 十 or 百 is directly after 十: the second 十 of 十十. */
    REPEATED_TEN,
    /** A unit is directly after 零: 万 of 一亿零万. */
    AFTER_ZERO,
    /** 两 may be a unit of weight: 两 of 二两. */
    WEIGHT,
    /** The unit can multiply one digit or all before it: 万 of 一百五万. */
    TWO_READINGS,
    /** 零 or a unit seems to be left out: 二 of 一亿二千. */
    LEFT_OUT_ZERO,
    /** The denominator is not a whole number above 0: 零 of 零分之一. */
    DENOMINATOR,
}
