// The event is called `state_entry`.
default {
    state_enter() {
        llOwnerSay("hello");
    }
}
