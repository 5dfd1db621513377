// Everybody may open it: the `;` is all that the `if` does.
default {
    touch_start(integer n) {
        if (llDetectedKey(0) == llGetOwner());
        {
            llSay(0, "It opens");
        }
    }
}
