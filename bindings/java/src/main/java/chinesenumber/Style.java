package chinesenumber;

import static java.util.Objects.requireNonNull;

import java.io.Serializable;
import java.util.Arrays;
import java.util.List;

/**
 * How a number or a quantity is written. {@code Style.DEFAULT.withCase(Case.UPPER)} writes 120 as
 * 壹佰贰拾.
 */
public final class Style extends Value implements Serializable {
    private static final long serialVersionUID = 1;
    /** The way {@link Way#ANY}, in simplified script and in lower case. */
    public static final Style DEFAULT = new Style(Way.ANY, Script.SIMPLIFIED, Case.LOWER);

    final Way way;
    final Script script;
    final Case letterCase;

    private Style(Way way, Script script, Case letterCase) {
        this.way = requireNonNull(way, "way");
        this.script = requireNonNull(script, "script");
        this.letterCase = requireNonNull(letterCase, "letterCase");
    }

    /** Writes by another way; for a quantity it is the method, and not {@link Way#DIGITS}. */
    public Style withWay(Way way) {
        return new Style(way, script, letterCase);
    }

    /** Writes in another script: {@link Script#TRADITIONAL} has 萬 for 万. */
    public Style withScript(Script script) {
        return new Style(way, script, letterCase);
    }

    /** Writes in another case: {@link Case#UPPER} has 壹 for 一. */
    public Style withCase(Case letterCase) {
        return new Style(way, script, letterCase);
    }

    @Override
    List<?> parts() {
        return Arrays.asList(way, script, letterCase);
    }
}
