package chinesenumber;

import java.util.Optional;

/** An expression in a text, as {@link ChineseNumbers#findQuantities} finds it. */
public final class FoundQuantity extends Found {
    private static final Doubt[] DOUBTS = Doubt.values();
    /** The higher bits are the code of a doubt, which is 0 for none. */
    private static final int BITS_OF_FLAGS = 4;

    FoundQuantity(Place place, int flags) {
        super(place, flags);
    }

    /**
     * Why a reader may understand something other than its quantity: {@link Doubt#DIGITS} for 五一.
     */
    public Optional<Doubt> doubt() {
        int code = flags >> BITS_OF_FLAGS;
        return code == 0 ? Optional.empty() : Optional.of(DOUBTS[code - 1]);
    }

    /**
     * The quantity, as {@link ChineseNumbers#toQuantity} reads it. The place of a refusal counts
     * from the start of its own text.
     *
     * @throws ChineseNumberException if its text is refused, such as 五六十
     */
    public Quantity quantity() {
        return quantity(Way.ANY);
    }

    /**
     * The quantity, read by a method.
     *
     * @throws ChineseNumberException if its text is refused
     * @throws IllegalArgumentException for {@link Way#DIGITS}
     */
    public Quantity quantity(Way method) {
        return ChineseNumbers.toQuantity(text(), method);
    }

    /** The quantity; empty if its text is refused, such as 五六十. */
    @Override
    public Optional<Quantity> value() {
        return ChineseNumbers.unlessRefused(this::quantity);
    }
}
