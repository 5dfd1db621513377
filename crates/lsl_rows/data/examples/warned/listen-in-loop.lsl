// After some touches 65 listens are active, and the next one stops the script.
default {
    touch_start(integer n) {
        while (n-- > 0) llListen(llGetUnixTime(), "", llDetectedKey(n), "");
    }
    listen(integer channel, string name, key id, string text) {
        llOwnerSay(text);
    }
}
