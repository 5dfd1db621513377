// The text has no second quote.
default {
    state_entry() {
        llSay(0, "hello);
    }
}
