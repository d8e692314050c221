// Made by bindings/codes.py.
package chinesenumber;

/** What is changed in a text to repair it. */
public enum Change {
    /** The character is inserted at the place. */
    INSERT,
    /** The character replaces the one at the place. */
    REPLACE,
    /** The character at the place is deleted. */
    DELETE,
}
