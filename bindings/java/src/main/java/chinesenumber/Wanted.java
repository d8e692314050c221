package chinesenumber;

import static java.util.Objects.requireNonNull;

import java.io.Serializable;
import java.util.Arrays;
import java.util.List;

/** Which characters a search looks for: the digits, and the units up to the greatest one. */
public final class Wanted extends Value implements Serializable {
    private static final long serialVersionUID = 1;
    /** The lower case, and units up to {@link NumeralUnit#ZHAO}, as in everyday sentences. */
    public static final Wanted DEFAULT = new Wanted(false, NumeralUnit.ZHAO);

    final boolean isUpper;
    final NumeralUnit greatest;

    private Wanted(boolean isUpper, NumeralUnit greatest) {
        this.isUpper = isUpper;
        this.greatest = requireNonNull(greatest, "greatest");
    }

    /** Finds the characters that only cheques have too, such as 參 and 陸. */
    public Wanted withUpper() {
        return new Wanted(true, greatest);
    }

    /** Finds units up to another one: {@link NumeralUnit#JING} for 一京. */
    public Wanted withGreatest(NumeralUnit greatest) {
        return new Wanted(isUpper, greatest);
    }

    /** The code of the case. */
    int upper() {
        return isUpper ? 1 : 0;
    }

    @Override
    List<?> parts() {
        return Arrays.asList(isUpper ? "upper" : "lower", greatest);
    }
}
