// Made by bindings/codes.py.
package chinesenumber;

/** How a quantity is written. */
public enum QuantityForm {
    /** 35, 三十五, 3万 */
    WHOLE,
    /** 3.5, 三點五, 3.5万 */
    DECIMAL,
    /** 12.5%, 百分之五十 */
    PERCENT,
    /** 三分之一, 千分之五 */
    FRACTION,
}
