// Greets by name whoever says hello, and remembers who was here.
list guests;

default {
    state_entry() {
        llListen(0, "", NULL_KEY, "hello");
    }

    listen(integer channel, string name, key id, string message) {
        if (llListFindList(guests, [name]) < 0) {
            guests += name;
            llSay(0, "Welcome, " + name + "!");
        } else {
            llSay(0, "Welcome back, " + name + "!");
        }
    }
}
