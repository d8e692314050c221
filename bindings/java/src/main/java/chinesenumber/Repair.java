package chinesenumber;

import static java.util.Objects.requireNonNull;

import java.io.Serializable;
import java.util.Arrays;
import java.util.List;

/**
 * One change of a text that makes its wrong character right, as {@link ChineseNumbers#inputRepair}
 * finds it: for 壹佰贰元整 it is {@link Change#INSERT}, 2 and 零.
 */
public final class Repair extends Value implements Serializable {
    private static final long serialVersionUID = 1;
    private static final Change[] CHANGES = Change.values();

    private final Change change;
    private final int charIndex;
    private final int index;
    private final String character;

    /** The repair at an address, where the code of the change is not 0. */
    Repair(Instance instance, int address) {
        charIndex = instance.getInt(address);
        index = instance.indexOf(instance.getInt(address + 8));
        change = CHANGES[instance.getInt(address + 16) - 1];
        int point = instance.getInt(address + 20);
        character = point == 0 ? "" : new String(Character.toChars(point));
    }

    /** What is changed: {@link Change#INSERT} for 壹佰贰元整. */
    public Change change() {
        return change;
    }

    /** How many characters come before the place: 2 for 壹佰贰元整. */
    public int charIndex() {
        return charIndex;
    }

    /** How many {@code char}s come before the place: 2 for 壹佰贰元整. */
    public int index() {
        return index;
    }

    /**
     * The character that is inserted or replaces the one there, such as 零; empty for {@link
     * Change#DELETE}.
     */
    public String character() {
        return character;
    }

    /**
     * The text after the change: {@code inputRepair("壹佰贰元整",
     * Input.AMOUNT).get().applyTo("壹佰贰元整")} is 壹佰零贰元整. The text is the one for which the repair was
     * found; it may still have other faults.
     *
     * @throws IndexOutOfBoundsException if {@link #index} is outside of the text
     */
    public String applyTo(CharSequence text) {
        StringBuilder changed = new StringBuilder(requireNonNull(text, "text"));
        if (change == Change.INSERT) {
            return changed.insert(index, character).toString();
        }
        int end = changed.offsetByCodePoints(index, 1);
        return changed.replace(index, end, character).toString();
    }

    @Override
    List<?> parts() {
        return Arrays.asList(change, charIndex, index, character);
    }

    /** The repair in a form such as INSERT 零 at index 2 (charIndex 2). */
    @Override
    public String toString() {
        String what = character.isEmpty() ? "" : " " + character;
        return change + what + " at index " + index + " (charIndex " + charIndex + ")";
    }
}
