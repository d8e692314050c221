package chinesenumber;

import java.io.Serializable;
import java.util.Locale;

/**
 * A text that was refused, and what it was read as: an input, a number or a quantity. The message
 * and the reason are computed from these.
 */
final class ReadText implements Serializable {
    private static final long serialVersionUID = 1;

    final String text;
    /** Null for a number or a quantity. */
    final Input input;
    /** Null for an input. */
    final Way way;
    /** Null for an input or a quantity. */
    final Kind kind;

    private ReadText(CharSequence text, Input input, Way way, Kind kind) {
        this.text = text.toString();
        this.input = input;
        this.way = way;
        this.kind = kind;
    }

    static ReadText of(CharSequence text, Input input) {
        return new ReadText(text, input, null, null);
    }

    static ReadText of(CharSequence text, Way method) {
        return new ReadText(text, null, method, null);
    }

    static ReadText of(CharSequence text, Way way, Kind kind) {
        return new ReadText(text, null, way, kind);
    }

    String message(Locale locale) {
        if (input != null) {
            return ChineseNumbers.inputMessage(text, input, locale);
        }
        return kind != null
            ? ChineseNumbers.numberMessage(text, locale, way, kind)
            : ChineseNumbers.quantityMessage(text, locale, way);
    }
}
