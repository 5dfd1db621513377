string size(integer n) {
    if (n > 10) return "big";
    if (n > 0) return "small";
}

default {
    touch_start(integer n) {
        llSay(0, size(n));
    }
}
