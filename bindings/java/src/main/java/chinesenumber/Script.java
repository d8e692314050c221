// Made by bindings/codes.py.
package chinesenumber;

/** The script of a text that is written: 萬 or 万. Both are read. */
public enum Script {
    /** 萬, 億 */
    TRADITIONAL,
    /** 万, 亿 */
    SIMPLIFIED,
}
