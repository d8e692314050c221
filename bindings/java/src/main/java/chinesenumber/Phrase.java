package chinesenumber;

import java.util.Arrays;
import java.util.List;
import java.util.Optional;

/**
 * A phrase in a text, as {@link ChineseNumbers#findPhrases} finds it: a date, a time, a range and
 * so on.
 *
 * <p>By its kind the value is
 *
 * <ul>
 * <li>of a date: a {@link java.time.LocalDate}, or a {@link PartialDate} if a part is not given or
 * the year is below 1000;
 * <li>of a time: a {@link java.time.LocalTime}, or a {@link ClockTime} at 24:00 or if the half of
 * the day is not known, as for 三点半;
 * <li>of a duration: a {@link java.time.Duration};
 * <li>of a half or a length: a {@link Quantity}, 1.5 for 一个半小时 and 1.75 for 一米七五;
 * <li>of years, months or days: a {@link ValuePair} of the first and the last as {@code Integer}s,
 * of a score of the two numbers;
 * <li>of a range: a {@link ValuePair} of quantities, 30000 and 50000 for 三到五万;
 * <li>of a sum of money: a {@link Quantity} of yuan, 3.50 for 三块五; nothing if it is no whole number
 * of fen below 10^18.
 * </ul>
 */
public final class Phrase extends Found {
    private final PhraseKind kind;
    private final PhraseState state;
    /** Null if it is refused. */
    private final Object value;

    Phrase(Place place, int flags, PhraseKind kind, PhraseState state, Object value) {
        super(place, flags);
        this.kind = kind;
        this.state = state;
        this.value = value;
    }

    /** What it is; never {@link PhraseKind#EXPRESSION}. */
    public PhraseKind kind() {
        return kind;
    }

    /** What is known of it: {@link PhraseState#DOUBTFUL} for 1000年 of 1000年前. */
    public PhraseState state() {
        return state;
    }

    /** What it means; empty if it is {@link PhraseState#REFUSED}, as 二月三十日 is. */
    @Override
    public Optional<?> value() {
        return Optional.ofNullable(value);
    }

    @Override
    List<?> parts() {
        return Arrays.asList(super.parts(), kind, state, value);
    }
}
