// A number becomes a text by a written cast alone.
integer count = 3;

default {
    state_entry() {
        llOwnerSay(count);
    }
}
