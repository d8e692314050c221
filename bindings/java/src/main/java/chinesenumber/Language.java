// Made by bindings/codes.py.
package chinesenumber;

/** The language of a message. */
enum Language {
    /** English, en. */
    ENGLISH,
    /** Chinese in simplified script, zh-Hans. */
    SIMPLIFIED_CHINESE,
    /** Chinese in traditional script, zh-Hant. */
    TRADITIONAL_CHINESE,
}
