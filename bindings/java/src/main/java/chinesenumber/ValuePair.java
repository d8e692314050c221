package chinesenumber;

import java.io.Serializable;
import java.util.Arrays;
import java.util.List;

/**
 * Two values of a phrase, such as the first and the last year of 2020至2025年.
 *
 * @param <T> an {@code Integer}, or a {@link Quantity} for a range
 */
public final class ValuePair<T extends Serializable> extends Value implements Serializable {
    private static final long serialVersionUID = 1;

    private final T first;
    private final T second;

    ValuePair(T first, T second) {
        this.first = first;
        this.second = second;
    }

    /** The first one. */
    public T first() {
        return first;
    }

    /** The second one. */
    public T second() {
        return second;
    }

    @Override
    List<?> parts() {
        return Arrays.asList(first, second);
    }

    @Override
    public String toString() {
        return first + ".." + second;
    }
}
