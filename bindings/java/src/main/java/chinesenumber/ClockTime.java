package chinesenumber;

import java.io.Serializable;
import java.util.Arrays;
import java.util.List;
import java.util.OptionalInt;

/** A time of day whose half of the day is not known, such as 三点半, or 24:00. */
public final class ClockTime extends Value implements Serializable {
    private static final long serialVersionUID = 1;
    private static final int NO_HOUR = 255;

    private final int hour;
    private final int minute;
    private final int second;
    private final int hourOfDay;

    ClockTime(int hour, int minute, int second, int hourOfDay) {
        this.hour = hour;
        this.minute = minute;
        this.second = second;
        this.hourOfDay = hourOfDay;
    }

    /** The hour as it is written. */
    public int hour() {
        return hour;
    }

    /** The minute. */
    public int minute() {
        return minute;
    }

    /** The second. */
    public int second() {
        return second;
    }

    /** The hour of the day, which is 24 at its end; empty if it is not known, as for 三点半. */
    public OptionalInt hourOfDay() {
        return hourOfDay == NO_HOUR ? OptionalInt.empty() : OptionalInt.of(hourOfDay);
    }

    @Override
    List<?> parts() {
        return Arrays.asList(hour, minute, second, hourOfDay);
    }

    /** The time in a form such as 3:30:00. */
    @Override
    public String toString() {
        return String.format("%d:%02d:%02d", hour, minute, second);
    }
}
