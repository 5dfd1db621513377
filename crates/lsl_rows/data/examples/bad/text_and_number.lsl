// A text is joined with texts.
integer count = 3;

default {
    state_entry() {
        llOwnerSay("count: " + count);
    }
}
