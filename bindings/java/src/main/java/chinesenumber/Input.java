// Made by bindings/codes.py.
package chinesenumber;

/** What a text is meant to be, for the calls that say what may follow it and why it is refused:
 * each names the call that reads it. */
public enum Input {
    /** What {@link ChineseNumbers#chineseToAmount} reads. */
    AMOUNT,
    /** What {@link ChineseNumbers#chineseToSignedAmount} reads. */
    SIGNED_AMOUNT,
    /** What {@link ChineseNumbers#chineseToAmountAsTyped} reads. */
    TYPED_AMOUNT,
    /** What {@link ChineseNumbers#chineseToSignedAmountAsTyped} reads. */
    TYPED_SIGNED_AMOUNT,
    /** What {@link ChineseNumbers#chineseToDate} reads. */
    DATE,
    /** What {@link ChineseNumbers#yuanToFen} reads. */
    FIGURES,
}
