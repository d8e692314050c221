// Made by bindings/codes.py.
package chinesenumber;

/** What is known of a phrase. */
public enum PhraseState {
    /** It has a value. */
    CERTAIN,
    /** It has a value, but may mean something else: 1000年 of 1000年前, 五到八 of 五到八折. */
    DOUBTFUL,
    /** It has no value: it names a day or a time that does not exist, or does not rise. */
    REFUSED,
}
