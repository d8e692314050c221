package chinesenumber;

import static java.util.Objects.requireNonNull;

import java.io.Serializable;
import java.util.Arrays;
import java.util.List;

/**
 * What is rewritten in a text, and how. With {@code TextOptions.DEFAULT.withExpanded()} 三千五百亿
 * becomes 350000000000.
 */
public final class TextOptions extends Value implements Serializable {
    private static final long serialVersionUID = 1;
    /** The names of the flags, from the lowest one; the first two are no options. */
    private static final String[] NAMES = {"", "", "about", "oneCharacter", "doubtful", "expanded",
        "canonical", "compact", "codes"};

    /**
     * What {@link Wanted#DEFAULT} finds, read by {@link Way#ANY}, but nothing that is approximate,
     * one Chinese character or doubtful.
     */
    public static final TextOptions DEFAULT = new TextOptions(Wanted.DEFAULT, Way.ANY, 0);

    final Wanted wanted;
    final Way method;
    final int flags;

    private TextOptions(Wanted wanted, Way method, int flags) {
        this.wanted = requireNonNull(wanted, "wanted");
        this.method = ChineseNumbers.method(method);
        this.flags = flags;
    }

    /** Finds another set of characters: with {@link Wanted#withUpper} 壹佰 becomes 100. */
    public TextOptions withWanted(Wanted wanted) {
        return new TextOptions(wanted, method, flags);
    }

    /** Reads by another method, which is not {@link Way#DIGITS}. */
    public TextOptions withMethod(Way method) {
        return new TextOptions(wanted, method, flags);
    }

    /** Rewrites approximate numbers too: 三百多 becomes 300多. */
    public TextOptions withAbout() {
        return with(Codes.ABOUT);
    }

    /** Rewrites single Chinese characters too: 一般 becomes 1般. */
    public TextOptions withOneCharacter() {
        return with(Codes.ONE_CHARACTER);
    }

    /** Rewrites what is doubtful too, except with {@link Doubt#PART}: 五一 becomes 51. */
    public TextOptions withDoubtful() {
        return with(Codes.DOUBTFUL);
    }

    /**
     * Writes all figures of a number instead of 万, 亿 or 兆: 三千五百亿 becomes 350000000000. Only the
     * calls that rewrite a text in figures have this option.
     */
    public TextOptions withExpanded() {
        return with(Codes.EXPANDED);
    }

    /**
     * Rewrites figures too, in ASCII, without commas and leading zeros: 1,280 becomes 1280. Only
     * the calls that rewrite a text in figures have this option.
     */
    public TextOptions withCanonical() {
        return with(Codes.CANONICAL);
    }

    /**
     * Writes dates, times, halves and sums of money as short as possible: 2026-01-05 15:30, 1.5小时,
     * 3.5元. Only {@link ChineseNumbers#textToFigures} has this option.
     */
    public TextOptions withCompact() {
        return with(Codes.COMPACT);
    }

    /**
     * Writes codes too, such as telephone numbers: 打幺幺零 becomes 打110. Only {@link
     * ChineseNumbers#textToFigures} has this option.
     */
    public TextOptions withCodes() {
        return with(Codes.CODES);
    }

    private TextOptions with(int flag) {
        return new TextOptions(wanted, method, flags | flag);
    }

    /** Refuses options that a call does not have. */
    void refuse(int others, String call) {
        int refused = flags & others;
        if (refused != 0) {
            String names = String.join(", ", names(refused, NAMES));
            throw new IllegalArgumentException(call + " has no option " + names);
        }
    }

    /** Whether an expression is among those that are replaced. */
    boolean include(FoundQuantity found) {
        int missing = found.flags & (Codes.ABOUT | Codes.ONE_CHARACTER) & ~flags;
        boolean isDoubtIncluded = found.doubt().map(this::include).orElse(true);
        return missing == 0 && isDoubtIncluded;
    }

    private boolean include(Doubt doubt) {
        return doubt != Doubt.PART && (flags & Codes.DOUBTFUL) != 0;
    }

    @Override
    List<?> parts() {
        return Arrays.asList(wanted, method, names(flags, NAMES));
    }
}
