// The condition isn't closed.
default {
    touch_start(integer n) {
        if (llDetectedKey(0) == llGetOwner() {
            llOwnerSay("you again");
        }
    }
}
