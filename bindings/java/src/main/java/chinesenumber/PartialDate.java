package chinesenumber;

import java.io.Serializable;
import java.util.Arrays;
import java.util.List;
import java.util.OptionalInt;

/** A date without a year, a month or a day, or with a year below 1000: 一月五日, 999年3月5日. */
public final class PartialDate extends Value implements Serializable {
    private static final long serialVersionUID = 1;
    private static final int YEAR_GIVEN = 1;
    private static final int MONTH_GIVEN = 2;
    private static final int DAY_GIVEN = 4;
    static final int ALL_GIVEN = YEAR_GIVEN | MONTH_GIVEN | DAY_GIVEN;

    private final int year;
    private final int month;
    private final int day;
    private final int given;

    PartialDate(int year, int month, int day, int given) {
        this.year = year;
        this.month = month;
        this.day = day;
        this.given = given;
    }

    private OptionalInt unlessMissing(int part, int flag) {
        return (given & flag) != 0 ? OptionalInt.of(part) : OptionalInt.empty();
    }

    /** The year as it is written: 26 for 二六年. */
    public OptionalInt year() {
        return unlessMissing(year, YEAR_GIVEN);
    }

    /** The month, from 1. */
    public OptionalInt month() {
        return unlessMissing(month, MONTH_GIVEN);
    }

    /** The day of the month. */
    public OptionalInt day() {
        return unlessMissing(day, DAY_GIVEN);
    }

    @Override
    List<?> parts() {
        return Arrays.asList(year(), month(), day());
    }

    /** The date in a form such as 2026-1-? and ?-1-5. */
    @Override
    public String toString() {
        return shown(year()) + "-" + shown(month()) + "-" + shown(day());
    }

    private static String shown(OptionalInt part) {
        return part.isPresent() ? Integer.toString(part.getAsInt()) : "?";
    }
}
