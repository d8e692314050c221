// Made by bindings/codes.py.
package chinesenumber;

/** Why a reader may understand an expression as something other than its quantity. If several
 * reasons apply, {@link Doubt#PART} is reported if it is among them, and otherwise the first in
 * this list. */
public enum Doubt {
    /** It is part of a word or a title, or the year of an era: 十二 of 十二指肠, 十一 of 双十一, 四十一 of
     * 乾隆四十一年. */
    WORD,
    /** It is two or three Chinese digits, or more in rising order, or two numbers: 五一, 一二三四,
     * 十五十六. */
    DIGITS,
    /** It is part of a term: 负二 of 负二项, 十六 of 十六进制. */
    TERM,
    /** It is part of an expression with 折, 成, 半 or 分之几: 八五 of 八五折, 一 of 一个半; or its last 一 begins
     * the next word: 两百一 of 两百一个月. */
    PART,
    /** It may be a time: 三点五 of 下午三点五, 十点零五. */
    TIME,
    /** It is one end of a range whose ends share a unit or 百分之: 3 and 5万 of 3~5万. */
    RANGE,
}
