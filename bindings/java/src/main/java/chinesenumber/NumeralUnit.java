// Made by bindings/codes.py.
package chinesenumber;

/** A unit; each is greater than the one before. A search takes the greatest one that it looks
 * for: {@link NumeralUnit#ZHAO} is the one to use, since in sentences greater ones nearly always
 * mean something else. */
public enum NumeralUnit {
    /** 個, 个 */
    GE,
    /** 十, 拾 */
    SHI,
    /** 百, 佰 */
    BAI,
    /** 千, 仟 */
    QIAN,
    /** 萬, 万 */
    WAN,
    /** 億, 亿 */
    YI,
    /** 兆 */
    ZHAO,
    /** 京 */
    JING,
    /** 垓 */
    GAI,
    /** 秭 */
    ZI,
    /** 穰 */
    RANG,
    /** 溝, 沟 */
    GOU,
    /** 澗, 涧 */
    JIAN,
    /** 正 */
    ZHENG,
    /** 載, 载 */
    ZAI,
    /** 極, 极 */
    JI,
}
