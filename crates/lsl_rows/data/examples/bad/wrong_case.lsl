// Upper and lower case differ.
default {
    state_entry() {
        llownersay("hello");
    }
}
