package chinesenumber;

import static chinesenumber.Instance.LENGTH;
import static chinesenumber.Instance.RESULT;
import static chinesenumber.Instance.TEXT;
import static java.util.Objects.requireNonNull;

import java.io.Serializable;
import java.math.BigDecimal;
import java.math.BigInteger;
import java.util.Arrays;
import java.util.List;
import java.util.Optional;

/**
 * An exact quantity, as it is written and not reduced: 12.5% is 125/1000 of {@link
 * QuantityForm#PERCENT}. It is immutable.
 *
 * <p>Two are equal if they have the same numerator, denominator and form: 50% does not equal 0.5.
 * To compare values use {@link #toBigDecimal} or, for fractions such as 1/3 too, each numerator
 * times the denominator of the other one.
 */
public final class Quantity extends Value implements Serializable {
    private static final long serialVersionUID = 1;
    static final QuantityForm[] FORMS = QuantityForm.values();
    private static final int MOST_DIGITS = 39;
    private static final BigInteger HUNDRED = BigInteger.valueOf(100);

    private final BigInteger numerator;
    private final BigInteger denominator;
    private final QuantityForm form;

    /**
     * A quantity of its numbers: {@code new Quantity(BigInteger.ONE, BigInteger.valueOf(3),
     * QuantityForm.FRACTION)} is 1/3.
     *
     * @throws ChineseNumberException {@link Status#NOT_A_QUANTITY} if the denominator is 0 or
     *     below, {@link Status#NOT_HELD} if a number has more than 128 bits
     */
    public Quantity(BigInteger numerator, BigInteger denominator, QuantityForm form) {
        requireNonNull(numerator, "numerator");
        if (requireNonNull(denominator, "denominator").signum() <= 0) {
            throw new ChineseNumberException(Status.NOT_A_QUANTITY, denominator.signum() == 0
                ? Codes.NOT_A_QUANTITY_TEXT : "the denominator is below 0");
        }
        this.numerator = ChineseNumbers.requireFits(numerator, Kind.I128);
        this.denominator = ChineseNumbers.requireFits(denominator, Kind.U128);
        this.form = requireNonNull(form, "form");
    }

    /**
     * A whole number or a decimal, with the decimals that it has: {@code Quantity.of(new
     * BigDecimal("3.10")).toChinese()} is 三点一零.
     *
     * @throws ChineseNumberException if the number or its decimals have more than 128 bits
     */
    public static Quantity of(BigDecimal number) {
        return of(requireNonNull(number, "number"), 0, QuantityForm.DECIMAL);
    }

    /** A whole number: {@code Quantity.of(35).toChinese()} is 三十五. */
    public static Quantity of(long number) {
        return of(BigDecimal.valueOf(number));
    }

    /**
     * A percentage: {@code Quantity.ofPercent(new BigDecimal("12.5"))} is 12.5%.
     *
     * @throws ChineseNumberException if the number or its decimals have more than 128 bits
     */
    public static Quantity ofPercent(BigDecimal number) {
        return of(requireNonNull(number, "number"), 2, QuantityForm.PERCENT);
    }

    /**
     * A fraction: {@code Quantity.ofFraction(1, 3).toChinese()} is 三分之一.
     *
     * @throws ChineseNumberException {@link Status#NOT_A_QUANTITY} if the denominator is 0 or below
     */
    public static Quantity ofFraction(long numerator, long denominator) {
        BigInteger below = BigInteger.valueOf(denominator);
        return new Quantity(BigInteger.valueOf(numerator), below, QuantityForm.FRACTION);
    }

    private static Quantity of(BigDecimal number, int places, QuantityForm form) {
        int scale = number.scale();
        long digits = Math.max((long) number.precision() - Math.min(scale, 0), scale);
        if (digits > MOST_DIGITS) {
            throw ChineseNumbers.doesNotFit(Kind.I128);
        }
        BigDecimal exact = scale < 0 ? number.setScale(0) : number;
        boolean isWhole = form == QuantityForm.DECIMAL && exact.scale() == 0;
        BigInteger denominator = BigInteger.TEN.pow(exact.scale() + places);
        QuantityForm ownForm = isWhole ? QuantityForm.WHOLE : form;
        return new Quantity(exact.unscaledValue(), denominator, ownForm);
    }

    /** The number above the line: 125 of 12.5%. */
    public BigInteger numerator() {
        return numerator;
    }

    /** The number below the line, above 0: 1000 of 12.5%. */
    public BigInteger denominator() {
        return denominator;
    }

    /** How it is written: {@link QuantityForm#PERCENT} for 12.5%. */
    public QuantityForm form() {
        return form;
    }

    /**
     * The value: 35000 for 3.5万, 0.125 for 12.5%. Zeros at the end are not kept: 3.1 for 3.10.
     *
     * @throws ArithmeticException if it has no end, as 1/3
     */
    public BigDecimal toBigDecimal() {
        return new BigDecimal(numerator).divide(new BigDecimal(denominator));
    }

    /** The value if it is a whole number: 35000 for 3.5万, empty for 3.5. */
    public Optional<BigInteger> toWhole() {
        BigInteger[] both = numerator.divideAndRemainder(denominator);
        return both[1].signum() == 0 ? Optional.of(both[0]) : Optional.empty();
    }

    /**
     * The same without the zeros at the end of its decimals: 3.10 becomes 3.1, and 3.5万 becomes
     * 35000 of {@link QuantityForm#WHOLE}. A fraction stays, and so does a quantity whose
     * denominator does not match its form.
     */
    public Quantity trimmed() {
        BigInteger least = form == QuantityForm.PERCENT ? HUNDRED : BigInteger.ONE;
        BigInteger first = form == QuantityForm.PERCENT ? HUNDRED : BigInteger.TEN;
        boolean hasDecimals = form == QuantityForm.DECIMAL || form == QuantityForm.PERCENT;
        if (!hasDecimals || !isPowerOfTen(denominator) || denominator.compareTo(first) < 0) {
            return this;
        }
        BigInteger above = numerator;
        BigInteger below = denominator;
        while (below.compareTo(least) > 0 && above.mod(BigInteger.TEN).signum() == 0) {
            above = above.divide(BigInteger.TEN);
            below = below.divide(BigInteger.TEN);
        }
        return new Quantity(above, below, below.equals(BigInteger.ONE) ? QuantityForm.WHOLE : form);
    }

    private static boolean isPowerOfTen(BigInteger number) {
        return BigInteger.TEN.pow(number.toString().length() - 1).equals(number);
    }

    /** Writes the quantity by {@link Style#DEFAULT}: 3.14 as 三点一四, 12.5% as 百分之十二点五. */
    public String toChinese() {
        return toChinese(Style.DEFAULT);
    }

    /**
     * Writes the quantity; {@link ChineseNumbers#toQuantity} reads the text by the same method as
     * the same numbers. What has a denominator that does not match its form is written as a
     * fraction.
     *
     * @throws ChineseNumberException if {@link Way#LOW} cannot write one of its numbers
     * @throws IllegalArgumentException for {@link Way#DIGITS}
     */
    public String toChinese(Style style) {
        int method = ChineseNumbers.method(requireNonNull(style, "style").way).ordinal();
        Instance instance = Instance.acquire();
        instance.put(RESULT, this);
        int status = Core.chinese_quantity_print(instance, RESULT, method, style.script.ordinal(),
            style.letterCase.ordinal(), TEXT, Codes.MOST_QUANTITY_BYTES, LENGTH);
        return ChineseNumbers.printed(instance, status);
    }

    /**
     * Writes the quantity in figures, without zeros at the end of its decimals: 35000 for 3.5万,
     * 12.5%, 1/3. {@link ChineseNumbers#toQuantity} does not read a fraction in such figures.
     */
    public String toFigures() {
        Instance instance = Instance.acquire();
        instance.put(RESULT, this);
        int status = Core.chinese_quantity_figures(instance, RESULT, TEXT, Codes.MOST_FIGURES_BYTES,
            LENGTH);
        return ChineseNumbers.printed(instance, status);
    }

    @Override
    List<?> parts() {
        return Arrays.asList(numerator, denominator, form);
    }

    /** What is read back goes through the constructor, which refuses what is no quantity. */
    private Object readResolve() {
        return new Quantity(numerator, denominator, form);
    }

    /** The quantity in figures. */
    @Override
    public String toString() {
        return toFigures();
    }
}
