// What is said has a channel.
default {
    state_entry() {
        llSay("hello");
    }
}
