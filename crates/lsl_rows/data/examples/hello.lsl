default {
    state_entry() {
        llOwnerSay("Hello, Avatar!");
    }
}
