// Counts who touches it.
integer count;

string text(integer number) {
    return "touched " + (string)number;
}

default {
    touch_start(integer n) {
        ++count;
        llSya(0, text(count));
        llOwnerSay(text(count));
    }
}
