// This loop never ends, so that the script takes no event again.
default {
    state_entry() {
        integer n;
        while (TRUE) ++n;
    }
}
