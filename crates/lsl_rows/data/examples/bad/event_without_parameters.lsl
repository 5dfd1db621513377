// touch_start is told how many touch.
default {
    touch_start() {
        llOwnerSay("touched");
    }
}
