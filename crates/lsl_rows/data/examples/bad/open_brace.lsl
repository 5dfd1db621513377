// The `if` is never closed.
default {
    touch_start(integer n) {
        if (n > 1) {
            llSay(0, "many");
    }

    timer() {
        llSay(0, "later");
    }
}
