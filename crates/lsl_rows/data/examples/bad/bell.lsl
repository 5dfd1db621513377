// Rings, and swings as far as the sine says: LSL has that call, this language hasn't.
integer rings;

string times(integer count) {
    if (count == 1) return "once";
    return (string)count + " times";
}

default {
    touch_start(integer n) {
        rings = rings + n;
        llSin(rings);
        llSay(0, "rung " + times(rings));
    }
}
