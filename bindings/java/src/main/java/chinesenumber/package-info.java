/**
 * Chinese numerals, amounts of money, dates, quantities and phrases, read, written, found in a text
 * and replaced. {@link chinesenumber.ChineseNumbers} has all calls. No argument and no result is
 * null.
 */
package chinesenumber;
