package chinesenumber;

import java.util.Arrays;
import java.util.List;

/** What may come next in a text after its longest part, from the start, that begins an input. */
public final class Expected extends Value {
    private final int charIndex;
    private final int index;
    private final boolean mayEnd;
    private final boolean whiteSpace;
    private final String characters;

    Expected(Instance instance, int address) {
        charIndex = instance.getInt(address);
        index = instance.indexOf(instance.getInt(address + 8));
        mayEnd = instance.getInt(address + 16) == 1;
        whiteSpace = instance.getInt(address + 20) == 1;
        StringBuilder all = new StringBuilder();
        for (int count = instance.getInt(address + 24), at = 0; at < count; at++) {
            all.appendCodePoint(instance.getInt(address + 28 + 4 * at));
        }
        characters = all.toString();
    }

    /** How many characters that part has: all of them, or those before the wrong one. */
    public int charIndex() {
        return charIndex;
    }

    /** How many {@code char}s that part has. */
    public int index() {
        return index;
    }

    /**
     * Whether that part is complete, so that the text may end there: 壹佰元整 is, 壹佰元 is not. A number
     * that may end can still be too large, as 10000000000000000 yuan in figures are.
     */
    public boolean mayEnd() {
        return mayEnd;
    }

    /** Whether white space may come next. */
    public boolean whiteSpace() {
        return whiteSpace;
    }

    /** The characters that may come next, each once: 壹贰叁 and so on for an empty amount. */
    public String characters() {
        return characters;
    }

    @Override
    List<?> parts() {
        return Arrays.asList(charIndex, index, mayEnd, whiteSpace, characters);
    }

    @Override
    public String toString() {
        return charIndex + " " + characters + (whiteSpace ? " space" : "") + (mayEnd ? " end" : "");
    }
}
