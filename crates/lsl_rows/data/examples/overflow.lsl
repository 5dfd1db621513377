default {
    state_entry() {
        string text = "0123456789abcdef";
        while (TRUE) {
            text += text;
            llOwnerSay((string)llStringLength(text));
        }
    }
}
