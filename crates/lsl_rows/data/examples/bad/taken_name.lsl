// Globals and functions share one set of names.
integer count;

integer count() {
    return 1;
}

default {
    state_entry() {
        llOwnerSay((string)count());
    }
}
