package chinesenumber;

import static java.util.Objects.requireNonNull;

import java.io.Serializable;
import java.util.Arrays;
import java.util.List;

/**
 * The form in which an amount is written; all are read. {@code AmountForm.DEFAULT.withCurrency()}
 * writes 人民币壹拾伍元整.
 */
public final class AmountForm extends Value implements Serializable {
    private static final long serialVersionUID = 1;
    /** The names of the flags, from the lowest one. */
    private static final String[] NAMES =
        {"currency", "roundYuan", "uprightClosing", "bracketedSign"};

    /** In simplified script, with 元, 整 and 负. */
    public static final AmountForm DEFAULT = new AmountForm(Script.SIMPLIFIED, 0);

    final Script script;
    final int flags;

    private AmountForm(Script script, int flags) {
        this.script = requireNonNull(script, "script");
        this.flags = flags;
    }

    /** Writes in another script: {@link Script#TRADITIONAL} has 貳 for 贰. */
    public AmountForm withScript(Script script) {
        return new AmountForm(script, flags);
    }

    /** Writes the prefix 人民币: 人民币壹拾伍元整. */
    public AmountForm withCurrency() {
        return new AmountForm(script, flags | Codes.CURRENCY);
    }

    /** Writes 圆 instead of 元: 壹拾伍圆整. */
    public AmountForm withRoundYuan() {
        return new AmountForm(script, flags | Codes.ROUND_YUAN);
    }

    /** Writes 正 instead of 整: 壹拾伍元正. */
    public AmountForm withUprightClosing() {
        return new AmountForm(script, flags | Codes.UPRIGHT_CLOSING);
    }

    /** Writes （负数） instead of 负 before a negative amount: （负数）壹拾伍元整. */
    public AmountForm withBracketedSign() {
        return new AmountForm(script, flags | Codes.BRACKETED_SIGN);
    }

    @Override
    List<?> parts() {
        return Arrays.asList(script, names(flags, NAMES));
    }
}
