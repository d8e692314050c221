package chinesenumber;

import java.util.ArrayList;
import java.util.List;

/** An object that is known by its parts: it equals those of its class with the same parts. */
abstract class Value {
    abstract List<?> parts();

    /** Whether the other one is of the same class and all its parts are the same. */
    @Override
    public boolean equals(Object other) {
        return other != null && getClass() == other.getClass()
            && parts().equals(((Value) other).parts());
    }

    @Override
    public int hashCode() {
        return parts().hashCode();
    }

    @Override
    public String toString() {
        return getClass().getSimpleName() + parts();
    }

    /** The names of the flags that are set, where the first name is that of the lowest flag. */
    static List<String> names(int flags, String... names) {
        List<String> all = new ArrayList<>();
        for (int at = 0; at < names.length; at++) {
            if ((flags >> at & 1) != 0) {
                all.add(names[at]);
            }
        }
        return all;
    }
}
