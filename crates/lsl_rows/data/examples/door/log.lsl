// Writes down what is said on channel 7.
integer heard;

default {
    state_entry() {
        llListen(7, "", "", "");
    }

    listen(integer c, string name, key id, string m) {
        ++heard;
        llOwnerSay((string)heard + " " + name + ": " + m);
    }
}
