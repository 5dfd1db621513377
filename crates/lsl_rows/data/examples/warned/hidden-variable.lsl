// The touches are counted in a variable that ends with the block.
integer touches;

default {
    touch_start(integer n) {
        if (n > 0) {
            integer touches = touches + n;
            llSay(0, (string)touches);
        }
    }
}
