default {
    state_entry() {
        integer left;
        for (left = 3; left > 0; --left) {
            llOwnerSay((string)left);
        }
        llOwnerSay("Off we go.");
    }
}
