// Passes on how many people there are, as it is told on channel 3.
default {
    state_entry() {
        llListen(3, "", NULL_KEY, "");
    }

    listen(integer channel, string name, key id, string message) {
        llMessageLinked(LINK_THIS, (integer)message, "people", id);
    }
}
