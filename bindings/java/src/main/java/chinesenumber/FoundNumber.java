package chinesenumber;

import static java.util.Objects.requireNonNull;

import java.math.BigInteger;
import java.util.Optional;

/** A number in a text, as {@link ChineseNumbers#findNumbers} finds it. */
public final class FoundNumber extends Found {
    FoundNumber(Place place, int flags) {
        super(place, flags);
    }

    /** Whether it is plain digits: 二零二五 is, 十 is not. */
    public boolean isPlain() {
        return has(Codes.PLAIN_DIGITS);
    }

    /**
     * The number, as {@link ChineseNumbers#toNumber} reads it: plain digits as such, anything else
     * by {@link Way#TEN_THOUSAND}. The place of a refusal counts from the start of its own text.
     *
     * @throws ChineseNumberException if its text is refused, such as 百 in 百分之五十, or a {@code long}
     *     does not hold the number
     */
    public long number() {
        return ChineseNumbers.toNumber(text(), way(Way.ANY));
    }

    /**
     * The number, as {@link ChineseNumbers#toBigInteger} reads it, likewise.
     *
     * @throws ChineseNumberException if its text is refused
     */
    public BigInteger bigInteger() {
        return bigInteger(Way.ANY);
    }

    /**
     * The number, where anything but plain digits is read by a way.
     *
     * @throws ChineseNumberException if its text is refused
     */
    public BigInteger bigInteger(Way way) {
        requireNonNull(way, "way");
        return ChineseNumbers.toBigInteger(text(), way(way));
    }

    private Way way(Way way) {
        return isPlain() ? Way.DIGITS : way == Way.ANY ? Way.TEN_THOUSAND : way;
    }

    /** The number; empty if its text is refused, such as 百 in 百分之五十. */
    @Override
    public Optional<BigInteger> value() {
        return ChineseNumbers.unlessRefused(this::bigInteger);
    }
}
