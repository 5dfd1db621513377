greet(string name) {
    llSay(0, "Hello, " + name);
}

default {
    touch_start(integer n) {
        llSay(0, "Hello");
    }
}
