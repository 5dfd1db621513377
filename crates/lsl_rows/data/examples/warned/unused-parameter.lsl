greet(string name) {
    llSay(0, "Hello");
}

default {
    touch_start(integer n) {
        greet(llDetectedName(0));
    }
}
