// Made by bindings/codes.py.
package chinesenumber;

/** The case of a number that is written: 壹拾 or 一十. Both are read. */
public enum Case {
    /** 壹, 拾: the characters of cheques. */
    UPPER,
    /** 一, 十 */
    LOWER,
}
