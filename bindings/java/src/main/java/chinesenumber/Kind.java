// Made by bindings/codes.py.
package chinesenumber;

/** The integer type that a number must fit: of u8 a number is from 0 to 255, of i8 from -128 to
 * 127. */
public enum Kind {
    U8,
    U16,
    U32,
    U64,
    U128,
    I8,
    I16,
    I32,
    I64,
    I128,
}
