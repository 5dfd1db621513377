// The door opens for everybody: `=` assigns.
integer is_open;

default {
    touch_start(integer n) {
        if (is_open = TRUE) llSay(0, "It is open");
    }
}
