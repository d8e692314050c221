package chinesenumber;

import static java.util.Objects.requireNonNull;

import java.io.Serializable;
import java.util.Arrays;
import java.util.List;

/**
 * How a text is spoken. With {@code Voice.DEFAULT.withYao()} 110 is 幺幺零 in a telephone number.
 */
public final class Voice extends Value implements Serializable {
    private static final long serialVersionUID = 1;

    /** In simplified script, by {@link Way#ANY}, with 一 for 1. */
    public static final Voice DEFAULT = new Voice(Script.SIMPLIFIED, Way.ANY, false);

    final Script script;
    final Way method;
    final boolean isYao;

    private Voice(Script script, Way method, boolean isYao) {
        this.script = requireNonNull(script, "script");
        this.method = ChineseNumbers.method(method);
        this.isYao = isYao;
    }

    /** Writes the new characters in a script. */
    public Voice withScript(Script script) {
        return new Voice(script, method, isYao);
    }

    /** Writes large numbers by another method, which is not {@link Way#DIGITS}. */
    public Voice withMethod(Way method) {
        return new Voice(script, method, isYao);
    }

    /** Says 幺 for 1 in codes, such as telephone numbers. */
    public Voice withYao() {
        return new Voice(script, method, true);
    }

    @Override
    List<?> parts() {
        return Arrays.asList(script, method, isYao);
    }
}
