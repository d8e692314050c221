package chinesenumber;

import static java.util.Objects.requireNonNull;

import java.util.Arrays;
import java.util.List;
import java.util.Optional;

/**
 * What is found in a text: a {@link FoundNumber}, a {@link FoundQuantity} or a {@link Phrase}. Two
 * are equal if they are of one class, at the same place, and have the same text and all that is
 * known of it.
 */
public abstract class Found extends Value {
    private final Place place;
    final int flags;

    Found(Place place, int flags) {
        this.place = place;
        this.flags = flags;
    }

    /** The part of the text that was found. */
    public final String text() {
        return place.text;
    }

    /** The index of its start in the {@code CharSequence}, as {@code subSequence} takes it. */
    public final int start() {
        return place.start;
    }

    /** The index after its end, likewise. */
    public final int end() {
        return place.start + place.text.length();
    }

    /** How many characters come before it: one of two {@code char}s counts once. */
    public final int charStart() {
        return place.charStart;
    }

    /** How many characters come before its end. */
    public final int charEnd() {
        return place.charStart + place.text.codePointCount(0, place.text.length());
    }

    /** Whether it stands alone, as 二十三 of 第二十三回 does and 4 of A4 does not. */
    public final boolean standsAlone() {
        return has(Codes.STANDS_ALONE);
    }

    /** Whether it is approximate, such as 十 in 十几, and 五六. */
    public final boolean isAbout() {
        return has(Codes.ABOUT);
    }

    /** Whether it is one Chinese character, such as 一 in 一般. */
    public final boolean isOneCharacter() {
        return has(Codes.ONE_CHARACTER);
    }

    final boolean has(int flag) {
        return (flags & flag) != 0;
    }

    /** What it means; empty if its text is refused, such as 五六十. */
    public abstract Optional<?> value();

    /**
     * What it means, if that is of a type: {@code found.value(LocalDate.class)} is the date of 一月五日
     * with its year.
     */
    public final <T> Optional<T> value(Class<T> type) {
        requireNonNull(type, "type");
        return value().filter(type::isInstance).map(type::cast);
    }

    @Override
    List<?> parts() {
        return Arrays.asList(place.text, place.start, place.charStart, flags);
    }

    /** Its text. */
    @Override
    public String toString() {
        return text();
    }

    /** A place in a text: its own text, and where this starts in UTF-16 and in characters. */
    static final class Place {
        final String text;
        final int start;
        final int charStart;

        Place(String text, int start, int charStart) {
            this.text = text;
            this.start = start;
            this.charStart = charStart;
        }
    }
}
